/*
 * blank.c: the identifier of a rig's record, by its name and type. Arguments: a file with the rig's descriptor, a file with the record.
 *
 *   cc blank.c $(pkg-config --cflags --libs kerbcanopy) -o blank
 */
#include <kerbcanopy.h>
#include <stdio.h>

/* What is asked for: a cluster of one unsigned 32-bit integer named "id". */
static const uint8_t reader[] = {0x00, 0x0E, 0x00, 0x50, 0x00, 0x01, 0x00, 0x08, 0x00, 0x07, 2, 'i', 'd', 0};

/* Room for one byte more than is accepted, so that a longer file is refused rather than cut. */
static uint8_t rig[KC_MAX_DESCRIPTOR + 1], data[KC_MAX_DATA + 1];

/* Reads a file's bytes, and says whether that went well. */
static int load(const char *name, uint8_t *bytes, size_t room, size_t *length) {
    FILE *file = fopen(name, "rb");
    if (file == NULL) {
        perror(name);
        return 0;
    }
    *length = fread(bytes, 1, room, file);
    int bad = ferror(file);
    if (bad) {
        perror(name);
    }
    fclose(file);
    return !bad;
}

int main(int count, char **arguments) {
    size_t rig_length, data_length;
    uint8_t id[4];
    if (count != 3) {
        fprintf(stderr, "usage: blank DESCRIPTOR DATA\n");
        return 2;
    }
    if (!load(arguments[1], rig, sizeof rig, &rig_length) || !load(arguments[2], data, sizeof data, &data_length)) {
        return 2;
    }
    kc_answer answer = kc_read_record(rig, rig_length, reader, sizeof reader, data, data_length, id, sizeof id);
    if (answer.number != KC_ACCEPTED) {
        printf("refused with %u (input %u, place %u)\n", answer.number, answer.input, answer.place);
        return 1;
    }
    printf("blank %lu\n", (unsigned long)id[0] << 24 | (unsigned long)id[1] << 16 | (unsigned long)id[2] << 8 | id[3]);
    return 0;
}
