/* answer NAME FILE: answers the DNS message on the standard input by the zone of this name and file, and writes the reply.
 * The message counts as one from 192.0.2.1 over UDP. The status is 1 if it gets no reply. */
#include "zone_service.h"

#include <stdio.h>
#include <string.h>
#include <time.h>

static uint8_t text[1 << 20], message[65535], out[ZONE_SERVICE_FRAME];

static int serve_zone(zone_service *service, const char *name, const char *path)
{
    uint8_t fault[200];
    size_t length;
    FILE *file = fopen(path, "rb");
    size_t len = file == NULL ? 0 : fread(text, 1, sizeof text, file);
    if (file != NULL)
        fclose(file);
    if (zone_service_add_zone(service, (const uint8_t *)name, strlen(name), text, len, fault, sizeof fault, &length) == ZONE_SERVICE_DONE &&
        zone_service_serve_zones(service, fault, sizeof fault, &length) == ZONE_SERVICE_DONE)
        return 0;
    fprintf(stderr, "%s: %.*s\n", path, (int)length, (const char *)fault);
    return 1;
}

static int answer(zone_service *service)
{
    const uint8_t source[4] = {192, 0, 2, 1};
    size_t written, waiting, len = fread(message, 1, sizeof message, stdin);
    uint32_t status = zone_service_answer(service, message, len, source, sizeof source, 53000, false, (uint64_t)time(NULL), out,
                                          sizeof out, &written, &waiting);
    /* A reply is written after its length in two bytes. A datagram has no length. */
    return status == ZONE_SERVICE_DONE && fwrite(out + 2, 1, written - 2, stdout) == written - 2 ? 0 : 1;
}

int main(int argc, char **argv)
{
    zone_service service = {NULL};
    if (argc != 3 || zone_service_create(&service.at) != ZONE_SERVICE_DONE)
        return 2;
    int status = serve_zone(&service, argv[1], argv[2]) || answer(&service);
    zone_service_free(service);
    return status;
}
