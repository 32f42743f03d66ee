#include "ecall.h"
#include <stdio.h>
int main(void) {
    static _Alignas(8) unsigned char room[ECALL_VEHICLE_ROOM];
    struct ecall_vehicle vehicle = {room};
    struct ecall_facts facts = {.vin = "WM9VDSVDSYA123456", .format = 2, .kind = 1, .time = 1577836800};
    struct ecall_vehicle_event sensor = {.kind = ECALL_VEHICLE_SENSOR};
    struct ecall_items items = {0};
    if (!ecall_vehicle_knows(&vehicle, &facts) || !ecall_vehicle_hear(&vehicle, &sensor, &items)) return 1;
    printf("%s, attempt %u\n", items.items[0].kind == ECALL_DIAL ? "dials" : "?", items.items[0].number);
}
