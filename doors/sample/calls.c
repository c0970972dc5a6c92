/* Calls every door of the table, both forms, on valid and on damaged inputs; prints whether each was done and how it was
 * refused. */
#include <stdio.h>
#include <string.h>

#include "damage.h"
#include "g7231.h"

static int altered(const struct door *door, const struct given *given, const union room room[MOST])
{
    for (unsigned i = 0; i < door->count; i++)
        if (is_buffer(&door->parameter[i]) && memcmp(room[i].byte, given->room[i].byte, ROOM_BYTES) != 0) return 1;
    return 0;
}

int main(void)
{
    static struct given given;
    static union room room[2][MOST];
    for (int number = 0; number < DOORS; number++) {
        const struct door *door = &doors[number];
        unsigned status[STATUSES] = {0}, valid[STATUSES] = {0};
        for (uint64_t turn = 0; turn < 2000; turn++) {
            struct random random = random_of(1, door, turn);
            uint32_t told[2];
            if (turn % 2) make_damaged(door, &random, &given);
            else make_valid(door, &random, &given);
            for (int form = 0; form < 2; form++) {
                union argument argument[MOST];
                for (unsigned i = 0; i < door->count; i++) {
                    argument[i] = given.value[i];
                    if (!is_buffer(&door->parameter[i])) continue;
                    memcpy(room[form][i].byte, given.room[i].byte, ROOM_BYTES);
                    argument[i].place = room[form][i].byte;
                }
                told[form] = (form ? door->bare : door->safe)(argument);
                if (told[form] != 0 && altered(door, &given, room[form])) {
                    printf("%s: its %s form altered something and refused\n", door->name, form ? "bare" : "safe");
                    return 1;
                }
            }
            if (told[0] != told[1] || memcmp(room[0], room[1], sizeof room[0]) != 0 || told[0] >= STATUSES) {
                printf("%s: its forms differ\n", door->name);
                return 1;
            }
            (turn % 2 ? status : valid)[told[0]]++;
        }
        printf("%s:", door->name);
        if (valid[0] != 1000) printf(" a valid call was refused");
        for (unsigned i = 0; i < door->count; i++) printf(" %s %u", door->parameter[i].name, door->parameter[i].width);
        for (uint32_t i = 0; i < STATUSES; i++)
            if (status[i]) printf(", %s", g7231_refusal(i));
        printf("\n");
    }
    printf("%s; %s\n", G7231_VERSION, g7231_refusal(77));
    return 0;
}
