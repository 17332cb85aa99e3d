/*
 * The control and firmware messages by protobuf-c, with the rows of pitokaenge.h. What is written is filled ahead, by the
 * `prepare` functions, so that a `write` is its size and its packing alone; it takes the prepared ones in turn. What is
 * read stands on the heap until the next is read, and a part is told by its distance from pbc_decoded().
 */
#include "control_c.pb-c.h"

#include <stdbool.h>
#include <stddef.h>
#include <string.h>

enum { PREPARED = 64, LONGEST = 64, PARTS = 19, MOST_TRANSPORTS = 8, MOST_COMPONENTS = 8 };
enum payload { NONE, RESPONSE, MEMBER };

union message {
    ProtobufCMessage base;
    ControlEnvelope envelope;
    Response response;
    DeviceInformation information;
    DeviceFeatures features;
    UpdateComponentSegment segment;
    ApplyFirmware apply;
};

struct prepared {
    union message message;
    Response within;
    uint8_t parts[PARTS][LONGEST];
    Transport transports[MOST_TRANSPORTS];
    FirmwareInformation firmware;
    FirmwareComponent components[MOST_COMPONENTS];
    FirmwareComponent *listed[MOST_COMPONENTS];
};

static const uint8_t decoded_base;
static union message *decoded;
static struct prepared prepared[PREPARED];
static size_t prepared_count;
static size_t turn;

const uint8_t *pbc_decoded(void)
{
    return &decoded_base;
}

void pbc_forget(void)
{
    prepared_count = 0;
    turn = 0;
}

static bool decode(const ProtobufCMessageDescriptor *fields, const uint8_t *message, size_t message_len)
{
    if (decoded)
        protobuf_c_message_free_unpacked(&decoded->base, NULL);
    decoded = (union message *)protobuf_c_message_unpack(fields, NULL, message_len, message);
    return decoded;
}

static uint64_t encode_next(uint8_t *output, size_t output_len, uint64_t *answer)
{
    const ProtobufCMessage *message = &prepared[turn].message.base;

    turn = turn + 1 == prepared_count ? 0 : turn + 1;
    answer[0] = 0;
    if (protobuf_c_message_get_packed_size(message) > output_len)
        return 14;
    answer[0] = protobuf_c_message_pack(message, output);
    return 0;
}

static struct prepared *prepare(void)
{
    return &prepared[prepared_count++];
}

/* `start, length` */
static void tell_part(const ProtobufCBinaryData *part, uint64_t *answer)
{
    answer[0] = (uintptr_t)part->data - (uintptr_t)&decoded_base;
    answer[1] = part->len;
}

/* `error_code, field, start, length` */
static void tell_response(const Response *response, uint64_t *answer)
{
    answer[0] = (uint64_t)(int64_t)response->error_code;
    answer[1] = response->payload_case;
    answer[2] = 0;
    answer[3] = 0;
    if (response->payload_case == RESPONSE__PAYLOAD_BYTES)
        tell_part(&response->bytes, answer + 2);
}

uint64_t pbc_envelope_read(const uint8_t *message, size_t message_len, uint64_t *answer, size_t answer_len)
{
    const ControlEnvelope *envelope;

    (void)answer_len;
    if (!decode(&control_envelope__descriptor, message, message_len))
        return 30;
    envelope = &decoded->envelope;
    answer[0] = (uint64_t)(int64_t)envelope->command;
    answer[1] = NONE;
    memset(answer + 2, 0, 4 * sizeof *answer);
    if (envelope->payload_case == CONTROL_ENVELOPE__PAYLOAD_RESPONSE) {
        answer[1] = RESPONSE;
        tell_response(envelope->response, answer + 2);
    } else if (envelope->payload_case == CONTROL_ENVELOPE__PAYLOAD_BYTES) {
        answer[1] = MEMBER;
        answer[3] = envelope->payload_case;
        tell_part(&envelope->bytes, answer + 4);
    }
    return 0;
}

uint64_t pbc_response_read(const uint8_t *message, size_t message_len, uint64_t *answer, size_t answer_len)
{
    (void)answer_len;
    if (!decode(&response__descriptor, message, message_len))
        return 30;
    tell_response(&decoded->response, answer);
    return 0;
}

uint64_t pbc_information_read(const uint8_t *message, size_t message_len, uint64_t *answer, size_t answer_len)
{
    const DeviceInformation *information;

    if (!decode(&device_information__descriptor, message, message_len))
        return 30;
    information = &decoded->information;
    tell_part(&information->serial_number, answer);
    tell_part(&information->name, answer + 2);
    tell_part(&information->device_type, answer + 4);
    answer[6] = information->n_supported_transports;
    for (size_t i = 7; i < answer_len; i++)
        answer[i] = i - 7 < answer[6] ? (uint64_t)(int64_t)information->supported_transports[i - 7] : 0;
    return 0;
}

uint64_t pbc_features_read(const uint8_t *message, size_t message_len, uint64_t *answer, size_t answer_len)
{
    (void)answer_len;
    if (!decode(&device_features__descriptor, message, message_len))
        return 30;
    answer[0] = decoded->features.features;
    answer[1] = decoded->features.device_attributes;
    return 0;
}

static ProtobufCBinaryData keep(uint8_t *part, const uint8_t *bytes, size_t bytes_len)
{
    ProtobufCBinaryData kept = {bytes_len, part};

    memcpy(part, bytes, bytes_len);
    return kept;
}

static void fill_response(Response *response, uint64_t error_code, ProtobufCBinaryData bytes)
{
    response__init(response);
    response->error_code = (ErrorCode)error_code;
    response->payload_case = RESPONSE__PAYLOAD_BYTES;
    response->bytes = bytes;
}

void pbc_envelope_prepare(uint64_t command, uint64_t payload, uint64_t error_code, uint64_t field,
                          const uint8_t *bytes, size_t bytes_len)
{
    struct prepared *made = prepare();
    ControlEnvelope *envelope = &made->message.envelope;
    ProtobufCBinaryData kept = keep(made->parts[0], bytes, bytes_len);

    (void)field;
    control_envelope__init(envelope);
    envelope->command = (Command)command;
    if (payload == RESPONSE) {
        envelope->payload_case = CONTROL_ENVELOPE__PAYLOAD_RESPONSE;
        envelope->response = &made->within;
        fill_response(&made->within, error_code, kept);
    } else if (payload == MEMBER) {
        envelope->payload_case = CONTROL_ENVELOPE__PAYLOAD_BYTES;
        envelope->bytes = kept;
    }
}

uint64_t pbc_envelope_write(uint64_t command, uint64_t payload, uint64_t error_code, uint64_t field,
                            const uint8_t *bytes, size_t bytes_len, uint8_t *output, size_t output_len,
                            uint64_t *answer, size_t answer_len)
{
    (void)command, (void)payload, (void)error_code, (void)field, (void)bytes, (void)bytes_len, (void)answer_len;
    return encode_next(output, output_len, answer);
}

void pbc_response_prepare(uint64_t error_code, uint64_t field, const uint8_t *bytes, size_t bytes_len)
{
    struct prepared *made = prepare();

    (void)field;
    fill_response(&made->message.response, error_code, keep(made->parts[0], bytes, bytes_len));
}

uint64_t pbc_response_write(uint64_t error_code, uint64_t field, const uint8_t *bytes, size_t bytes_len,
                            uint8_t *output, size_t output_len, uint64_t *answer, size_t answer_len)
{
    (void)error_code, (void)field, (void)bytes, (void)bytes_len, (void)answer_len;
    return encode_next(output, output_len, answer);
}

void pbc_information_prepare(const uint8_t *serial_number, size_t serial_number_len, const uint8_t *name,
                             size_t name_len, const uint8_t *device_type, size_t device_type_len,
                             const uint64_t *transports, size_t transports_len)
{
    struct prepared *made = prepare();
    DeviceInformation *information = &made->message.information;

    device_information__init(information);
    information->serial_number = keep(made->parts[0], serial_number, serial_number_len);
    information->name = keep(made->parts[1], name, name_len);
    information->device_type = keep(made->parts[2], device_type, device_type_len);
    information->n_supported_transports = transports_len;
    information->supported_transports = made->transports;
    for (size_t i = 0; i < transports_len; i++)
        made->transports[i] = (Transport)transports[i];
}

uint64_t pbc_information_write(const uint8_t *serial_number, size_t serial_number_len, const uint8_t *name,
                               size_t name_len, const uint8_t *device_type, size_t device_type_len,
                               const uint64_t *transports, size_t transports_len, uint8_t *output, size_t output_len,
                               uint64_t *answer, size_t answer_len)
{
    (void)serial_number, (void)serial_number_len, (void)name, (void)name_len, (void)device_type;
    (void)device_type_len, (void)transports, (void)transports_len, (void)answer_len;
    return encode_next(output, output_len, answer);
}

void pbc_features_prepare(uint64_t features, uint64_t device_attributes)
{
    DeviceFeatures *message = &prepare()->message.features;

    device_features__init(message);
    message->features = features;
    message->device_attributes = device_attributes;
}

uint64_t pbc_features_write(uint64_t features, uint64_t device_attributes, uint8_t *output, size_t output_len,
                            uint64_t *answer, size_t answer_len)
{
    (void)features, (void)device_attributes, (void)answer_len;
    return encode_next(output, output_len, answer);
}

/* `name start, length, offset, size, signature start, length, field`; protobuf-c judges no profile. */
uint64_t pbc_segment_read(const uint8_t *message, size_t message_len, uint64_t *answer, size_t answer_len)
{
    const UpdateComponentSegment *segment;

    (void)answer_len;
    if (!decode(&update_component_segment__descriptor, message, message_len))
        return 30;
    segment = &decoded->segment;
    tell_part(&segment->component_name, answer);
    answer[2] = segment->component_offset;
    answer[3] = segment->segment_size;
    tell_part(&segment->segment_signature, answer + 4);
    answer[6] = 0;
    return 0;
}

void pbc_segment_prepare(const uint8_t *name, size_t name_len, uint64_t offset, uint64_t size, const uint8_t *signature,
                         size_t signature_len)
{
    struct prepared *made = prepare();
    UpdateComponentSegment *segment = &made->message.segment;

    update_component_segment__init(segment);
    segment->component_name = keep(made->parts[0], name, name_len);
    segment->component_offset = (uint32_t)offset;
    segment->segment_size = (uint32_t)size;
    segment->segment_signature = keep(made->parts[1], signature, signature_len);
}

uint64_t pbc_segment_write(const uint8_t *name, size_t name_len, uint64_t offset, uint64_t size,
                           const uint8_t *signature, size_t signature_len, uint8_t *output, size_t output_len,
                           uint64_t *answer, size_t answer_len)
{
    (void)name, (void)name_len, (void)offset, (void)size, (void)signature, (void)signature_len, (void)answer_len;
    answer[1] = 0;
    return encode_next(output, output_len, answer);
}

/* An ApplyFirmware's row: nine numbers, then six for each component. */
enum { AHEAD = 9, EACH = 6 };

uint64_t pbc_apply_read(const uint8_t *message, size_t message_len, uint64_t *answer, size_t answer_len)
{
    const FirmwareInformation *information;
    uint64_t *cells = answer + AHEAD;

    if (!decode(&apply_firmware__descriptor, message, message_len))
        return 30;
    information = decoded->apply.firmware_information;
    answer[0] = (uint64_t)decoded->apply.restart_required;
    answer[1] = information->version;
    tell_part(&information->name, answer + 2);
    tell_part(&information->locale, answer + 4);
    tell_part(&information->version_name, answer + 6);
    answer[8] = information->n_components;
    for (size_t i = 0; i < information->n_components; i++, cells += EACH) {
        const FirmwareComponent *component = information->components[i];

        cells[0] = component->version;
        tell_part(&component->name, cells + 1);
        cells[3] = component->size;
        tell_part(&component->signature, cells + 4);
    }
    memset(cells, 0, (size_t)(answer + answer_len - cells) * sizeof *cells);
    return 0;
}

void pbc_apply_prepare(const uint64_t *row, size_t row_len, const uint8_t *texts, size_t texts_len)
{
    struct prepared *made = prepare();
    ApplyFirmware *apply = &made->message.apply;
    FirmwareInformation *information = &made->firmware;
    const uint64_t *cells = row + AHEAD;

    (void)row_len, (void)texts_len;
    apply_firmware__init(apply);
    apply->firmware_information = information;
    apply->restart_required = row[0] != 0;
    firmware_information__init(information);
    information->version = (uint32_t)row[1];
    information->name = keep(made->parts[0], texts + row[2], row[3]);
    information->locale = keep(made->parts[1], texts + row[4], row[5]);
    information->version_name = keep(made->parts[2], texts + row[6], row[7]);
    information->n_components = row[8];
    information->components = made->listed;
    for (size_t i = 0; i < row[8]; i++, cells += EACH) {
        FirmwareComponent *component = made->listed[i] = &made->components[i];

        firmware_component__init(component);
        component->version = (uint32_t)cells[0];
        component->name = keep(made->parts[3 + 2 * i], texts + cells[1], cells[2]);
        component->size = (uint32_t)cells[3];
        component->signature = keep(made->parts[4 + 2 * i], texts + cells[4], cells[5]);
    }
}

uint64_t pbc_apply_write(const uint64_t *row, size_t row_len, const uint8_t *texts, size_t texts_len, uint8_t *output,
                         size_t output_len, uint64_t *answer, size_t answer_len)
{
    (void)row, (void)row_len, (void)texts, (void)texts_len, (void)answer_len;
    return encode_next(output, output_len, answer);
}
