// The C example in C++: one symbol there and back, then with noise, then with the clips the wrong way
// round.
//
//   g++ -Wall -Wextra -Werror -std=c++11 -Iinclude examples/symbol.cpp
//       target/staticlib/libclevisroot.a -o symbol
#include "clevisroot_names.h"
#include <array>
#include <cstdio>
#include <vector>

namespace {

const std::array<uint8_t, 8> bits = {{0, 0, 3, 1, 0, 2, 1, 4}};
const std::array<uint16_t, 8> gains = {{0, 0, 512, 512, 512, 512, 512, 512}};
const std::array<uint16_t, 6> tones = {{7, 3, 5, 2, 6, 4}};

struct Points {
    std::vector<int16_t> x, y;
};

clevisroot_answer check()
{
    return clevisroot_check(1, bits.data(), bits.size(), gains.data(), gains.size(), tones.data(),
                            tones.size());
}

clevisroot_answer encode(const std::vector<uint8_t> &frame, uint32_t reg, Points &points)
{
    return clevisroot_encode(1, bits.data(), bits.size(), gains.data(), gains.size(), tones.data(),
                             tones.size(), frame.data(), frame.size(), reg, points.x.data(),
                             points.x.size(), points.y.data(), points.y.size());
}

clevisroot_answer read(const Points &points, uint32_t reg, std::vector<uint8_t> &frame)
{
    return clevisroot_read(1, bits.data(), bits.size(), gains.data(), gains.size(), tones.data(),
                           tones.size(), points.x.data(), points.x.size(), points.y.data(),
                           points.y.size(), reg, frame.data(), frame.size());
}

void read_and_tell(const char *clips, const Points &points, std::size_t bytes)
{
    std::vector<uint8_t> frame(bytes);
    const clevisroot_answer a = read(points, CLEVISROOT_RESET, frame);
    if (a.number == CLEVISROOT_DONE)
        std::printf("%s: read frame %u\n", clips, unsigned(frame[0]));
    else
        std::printf("%s: refused %u %s at place %u\n", clips, unsigned(a.number),
                    clevisroot_refusal_name(a.number), unsigned(a.place));
}

Points noisy(Points points)
{
    for (std::size_t p = 0; p < points.x.size(); p++) {
        points.x[p] = int16_t(points.x[p] + p % 2);
        points.y[p] = int16_t(points.y[p] - p % 3);
    }
    return points;
}

clevisroot_nearest nearest(const Points &points, uint32_t reg, std::vector<uint8_t> &frame)
{
    std::vector<uint8_t> work(clevisroot_work_bytes(1, bits.data(), bits.size()));
    return clevisroot_read_nearest(1, bits.data(), bits.size(), gains.data(), gains.size(),
                                   tones.data(), tones.size(), points.x.data(), points.x.size(),
                                   points.y.data(), points.y.size(), reg, frame.data(),
                                   frame.size(), 0, work.data(), work.size());
}

// Points with noise are no grid points: the nearest frame, and the total of squared distances.
void read_noisy(const Points &points, std::size_t bytes)
{
    std::vector<uint8_t> frame(bytes);
    const clevisroot_nearest a = nearest(points, CLEVISROOT_RESET, frame);
    if (a.number == CLEVISROOT_DONE)
        std::printf("noisy: nearest is frame %u, total %llu\n", unsigned(frame[0]),
                    static_cast<unsigned long long>(a.total));
    else
        std::printf("noisy: refused %u %s at place %u\n", unsigned(a.number),
                    clevisroot_refusal_name(a.number), unsigned(a.place));
}

Points turned(Points points)
{
    for (std::size_t p = 0; p < points.x.size(); p++) {
        points.x[p] = int16_t(-points.x[p]);
        points.y[p] = int16_t(-points.y[p]);
    }
    return points;
}

} // namespace

int main()
{
    clevisroot_answer a = check();
    if (a.number != CLEVISROOT_DONE) {
        std::printf("tables refused %u %s at place %u\n", unsigned(a.number),
                    clevisroot_refusal_name(a.number), unsigned(a.place));
        return 1;
    }
    const std::size_t bytes = clevisroot_frame_bytes(a.size); // L is 5, so one byte
    std::printf("L is %u\n", unsigned(a.size));

    const std::vector<uint8_t> frame(bytes, 21);
    Points points = {std::vector<int16_t>(tones.size()), std::vector<int16_t>(tones.size())};
    a = encode(frame, CLEVISROOT_RESET, points);
    if (a.number != CLEVISROOT_DONE)
        return 1;
    std::printf("frame %u:", unsigned(frame[0]));
    for (std::size_t p = 0; p < tones.size(); p++)
        std::printf(" (%d,%d)", points.x[p], points.y[p]);
    std::printf("\nregister for the next symbol: %u\n", unsigned(a.reg));

    read_and_tell("straight", points, bytes);
    read_noisy(noisy(points), bytes);
    read_and_tell("turned", turned(points), bytes);
}
