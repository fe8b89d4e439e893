// A first caller in C++: opens a run at 4 samples per pulse on settings that are else all 0, and prints the refusal. README shows
// how to build it.
#include <cstdint>
#include <cstdio>
#include <more1090_generator.h>
#include <vector>

int main() {
    const int spp = 4;
    std::vector<std::uint8_t> settings(MORE1090_SETTINGS_LEN);
    settings.back() = spp;
    std::vector<float> taps_s(MORE1090_MODE_S_TAPS_LEN(spp)), taps_ac(MORE1090_MODE_AC_TAPS_LEN(spp));
    std::vector<float> mode_s(MORE1090_PROTOTYPE_LEN(spp)), mode_ac(MORE1090_PROTOTYPE_LEN(spp));
    std::vector<float> memory(MORE1090_MEMORY_LEN(spp));
    const auto opened =
        more1090_open(settings.data(), settings.size(), taps_s.data(), taps_s.size(), taps_ac.data(), taps_ac.size(),
                      mode_s.data(), mode_s.size(), mode_ac.data(), mode_ac.size(), memory.data(), memory.size());
    std::printf("refused %llu\n", static_cast<unsigned long long>(opened.refusal));
    return opened.refusal == MORE1090_ERR_TOTAL_RATE ? 0 : 1;
}
