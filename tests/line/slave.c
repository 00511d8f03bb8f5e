/* A slave on libmodbus, whose instructions are counted beside ours: `slave DEVICE` answers at address 1 to the device's end. Functions 03 and 04 read
 * the same registers, as document 01 has it. */
#include <modbus.h>

static uint16_t registers[2048];

int main(int count, char **words)
{
    modbus_mapping_t mapping = {
        .nb_registers = 2048, .tab_registers = registers,
        .nb_input_registers = 2048, .tab_input_registers = registers,
    };
    uint8_t request[MODBUS_RTU_MAX_ADU_LENGTH];
    modbus_t *port = count == 2 ? modbus_new_rtu(words[1], 115200, 'N', 8, 1) : NULL;
    if (port == NULL || modbus_set_slave(port, 1) != 0 || modbus_connect(port) != 0)
        return 1;
    for (;;) {
        int length = modbus_receive(port, request);
        if (length < 0)
            return 0;
        if (length > 0)
            modbus_reply(port, request, length, &mapping);
    }
}
