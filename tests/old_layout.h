/*
 * Memory of the layout before schedules of 512, as the library of that layout left it: the words that are not 0, each by its index and value.
 * `old_off`: one channel, powered up. `old_on`: three channels with some calls on each, the receiver of channel 1 on.
 */
enum { OLD_MODULE_WORDS = 16, OLD_CHANNEL_WORDS = 4667 };

static const uint32_t old_off[][2] = {
    {0, 0x1}, {3, 0x5}, {18, 0x1}, {24, 0xff}, {25, 0x80}, {26, 0x20}, {27, 0x4},
};

static const uint32_t old_on[][2] = {
    {0, 0x3}, {1, 0x1234}, {3, 0x5}, {6, 0x2}, {16, 0x1}, {18, 0x1}, {20, 0x1}, {24, 0xff}, {25, 0x80}, {26, 0x20}, {27, 0x4}, {28, 0x1}, {29, 0x1},
    {40, 0x2}, {41, 0x1}, {48, 0x6000012b}, {49, 0x1234}, {51, 0xa1}, {52, 0x1234}, {4684, 0x1}, {4685, 0x1}, {4690, 0x2}, {4691, 0xff}, {4692, 0x80},
    {4693, 0x20}, {4694, 0x4}, {4699, 0x1}, {4700, 0x1}, {4705, 0x1}, {8838, 0x123}, {9093, 0x64}, {9094, 0x1000}, {9095, 0x20ff}, {9349, 0x6001},
    {9350, 0x1}, {9352, 0x1}, {9355, 0x1}, {9358, 0xff}, {9359, 0x80}, {9360, 0x20}, {9361, 0x4}, {9362, 0x1}, {9364, 0x1}, {9374, 0x1}, {9378, 0x1},
    {9382, 0x12b}, {10146, 0x80000001}, {11298, 0x2}, {11299, 0x6000012b},
};
