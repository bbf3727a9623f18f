#include <stdint.h>

#define SOUNDER (*(volatile uint16_t *)0x40000000)   /* device registers, in a region that is not cached */
#define TENSION (*(volatile uint8_t *)0x40000004)
#define MOTOR   (*(volatile uint8_t *)0x40000008)

struct warp { uint8_t state; uint8_t tension; uint16_t depth; uint32_t hauls; };

const uint8_t brake[32] = { 9, 9, 8, 8, 7, 7, 6, 6, 5, 5, 4, 4, 3, 3, 2, 2, 1, 1 };
uint16_t shallowest = 40;
uint16_t depths[8];
struct warp warp;

void control(void)
{
    for (int turn = 0; turn < 10; turn++) {
        warp.depth = SOUNDER;
        warp.tension = TENSION;
        depths[turn % 8] = warp.depth;
        if (warp.depth < shallowest)
            warp.hauls++;
        MOTOR = brake[warp.tension % 32];
    }
}
