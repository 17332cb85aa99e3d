/*
 * The control and firmware messages by nanopb, with the rows of pitokaenge.h. The structs that are written are filled ahead,
 * by the `prepare` functions, so that a `write` is pb_encode alone; it takes the prepared ones in turn. A part that is
 * read is told as its place in the decoded struct, nanopb_decoded().
 */
#include "control.pb.h"

#include <pb_decode.h>
#include <pb_encode.h>
#include <stddef.h>
#include <string.h>

enum { PREPARED = 64 };
enum payload { NONE, RESPONSE, MEMBER };

union message {
    ControlEnvelope envelope;
    Response response;
    DeviceInformation information;
    DeviceFeatures features;
    UpdateComponentSegment segment;
    ApplyFirmware apply;
};

static union message decoded;
static union message prepared[PREPARED];
static size_t prepared_count;
static size_t turn;

const uint8_t *nanopb_decoded(void)
{
    return (const uint8_t *)&decoded;
}

void nanopb_forget(void)
{
    prepared_count = 0;
    turn = 0;
}

static bool decode(const pb_msgdesc_t *fields, const uint8_t *message, size_t message_len)
{
    pb_istream_t stream = pb_istream_from_buffer(message, message_len);

    return pb_decode(&stream, fields, &decoded);
}

static uint64_t encode_next(const pb_msgdesc_t *fields, uint8_t *output, size_t output_len, uint64_t *answer)
{
    pb_ostream_t stream = pb_ostream_from_buffer(output, output_len);
    bool written = pb_encode(&stream, fields, &prepared[turn]);

    turn = turn + 1 == prepared_count ? 0 : turn + 1;
    answer[0] = stream.bytes_written;
    return written ? 0 : 14;
}

static union message *prepare(void)
{
    union message *message = &prepared[prepared_count++];

    memset(message, 0, sizeof *message);
    return message;
}

static uint64_t place(const void *part)
{
    return (uint64_t)((const uint8_t *)part - (const uint8_t *)&decoded);
}

/* `error_code, field, start, length` */
static void tell_response(const Response *response, uint64_t *answer)
{
    const Response_bytes_t *bytes = &response->payload.bytes;
    bool has = response->which_payload == Response_bytes_tag;

    answer[0] = (uint64_t)(int64_t)response->error_code;
    answer[1] = response->which_payload;
    answer[2] = has ? place(bytes->bytes) : 0;
    answer[3] = has ? bytes->size : 0;
}

uint64_t nanopb_envelope_read(const uint8_t *message, size_t message_len, uint64_t *answer, size_t answer_len)
{
    const ControlEnvelope *envelope = &decoded.envelope;
    const ControlEnvelope_bytes_t *bytes = &envelope->payload.bytes;

    (void)answer_len;
    if (!decode(ControlEnvelope_fields, message, message_len))
        return 30;
    answer[0] = (uint64_t)(int64_t)envelope->command;
    answer[1] = NONE;
    memset(answer + 2, 0, 4 * sizeof *answer);
    if (envelope->which_payload == ControlEnvelope_response_tag) {
        answer[1] = RESPONSE;
        tell_response(&envelope->payload.response, answer + 2);
    } else if (envelope->which_payload != 0) {
        answer[1] = MEMBER;
        answer[3] = envelope->which_payload;
        answer[4] = place(bytes->bytes);
        answer[5] = bytes->size;
    }
    return 0;
}

uint64_t nanopb_response_read(const uint8_t *message, size_t message_len, uint64_t *answer, size_t answer_len)
{
    (void)answer_len;
    if (!decode(Response_fields, message, message_len))
        return 30;
    tell_response(&decoded.response, answer);
    return 0;
}

uint64_t nanopb_information_read(const uint8_t *message, size_t message_len, uint64_t *answer, size_t answer_len)
{
    const DeviceInformation *information = &decoded.information;

    if (!decode(DeviceInformation_fields, message, message_len))
        return 30;
    answer[0] = place(information->serial_number.bytes);
    answer[1] = information->serial_number.size;
    answer[2] = place(information->name.bytes);
    answer[3] = information->name.size;
    answer[4] = place(information->device_type.bytes);
    answer[5] = information->device_type.size;
    answer[6] = information->supported_transports_count;
    for (size_t i = 7; i < answer_len; i++)
        answer[i] = i - 7 < answer[6] ? (uint64_t)(int64_t)information->supported_transports[i - 7] : 0;
    return 0;
}

uint64_t nanopb_features_read(const uint8_t *message, size_t message_len, uint64_t *answer, size_t answer_len)
{
    (void)answer_len;
    if (!decode(DeviceFeatures_fields, message, message_len))
        return 30;
    answer[0] = decoded.features.features;
    answer[1] = decoded.features.device_attributes;
    return 0;
}

static void fill_response(Response *response, uint64_t error_code, uint64_t field, const uint8_t *bytes,
                          size_t bytes_len)
{
    response->error_code = (ErrorCode)error_code;
    response->which_payload = (pb_size_t)field;
    response->payload.bytes.size = (pb_size_t)bytes_len;
    memcpy(response->payload.bytes.bytes, bytes, bytes_len);
}

void nanopb_envelope_prepare(uint64_t command, uint64_t payload, uint64_t error_code, uint64_t field,
                             const uint8_t *bytes, size_t bytes_len)
{
    ControlEnvelope *envelope = &prepare()->envelope;

    envelope->command = (Command)command;
    if (payload == RESPONSE) {
        envelope->which_payload = ControlEnvelope_response_tag;
        fill_response(&envelope->payload.response, error_code, field, bytes, bytes_len);
    } else if (payload == MEMBER) {
        envelope->which_payload = (pb_size_t)field;
        envelope->payload.bytes.size = (pb_size_t)bytes_len;
        memcpy(envelope->payload.bytes.bytes, bytes, bytes_len);
    }
}

uint64_t nanopb_envelope_write(uint64_t command, uint64_t payload, uint64_t error_code, uint64_t field,
                               const uint8_t *bytes, size_t bytes_len, uint8_t *output, size_t output_len,
                               uint64_t *answer, size_t answer_len)
{
    (void)command, (void)payload, (void)error_code, (void)field, (void)bytes, (void)bytes_len, (void)answer_len;
    return encode_next(ControlEnvelope_fields, output, output_len, answer);
}

void nanopb_response_prepare(uint64_t error_code, uint64_t field, const uint8_t *bytes, size_t bytes_len)
{
    fill_response(&prepare()->response, error_code, field, bytes, bytes_len);
}

uint64_t nanopb_response_write(uint64_t error_code, uint64_t field, const uint8_t *bytes, size_t bytes_len,
                               uint8_t *output, size_t output_len, uint64_t *answer, size_t answer_len)
{
    (void)error_code, (void)field, (void)bytes, (void)bytes_len, (void)answer_len;
    return encode_next(Response_fields, output, output_len, answer);
}

#define FILL(field, from, length) \
    do { \
        (field).size = (pb_size_t)(length); \
        memcpy((field).bytes, from, length); \
    } while (0)

static void fill_information(DeviceInformation *information, const uint8_t *serial_number, size_t serial_number_len,
                             const uint8_t *name, size_t name_len, const uint8_t *device_type, size_t device_type_len,
                             const uint64_t *transports, size_t transports_len)
{
    FILL(information->serial_number, serial_number, serial_number_len);
    FILL(information->name, name, name_len);
    FILL(information->device_type, device_type, device_type_len);
    information->supported_transports_count = (pb_size_t)transports_len;
    for (size_t i = 0; i < transports_len; i++)
        information->supported_transports[i] = (Transport)transports[i];
}

void nanopb_information_prepare(const uint8_t *serial_number, size_t serial_number_len, const uint8_t *name,
                                size_t name_len, const uint8_t *device_type, size_t device_type_len,
                                const uint64_t *transports, size_t transports_len)
{
    fill_information(&prepare()->information, serial_number, serial_number_len, name, name_len, device_type,
                     device_type_len, transports, transports_len);
}

uint64_t nanopb_information_write(const uint8_t *serial_number, size_t serial_number_len, const uint8_t *name,
                                  size_t name_len, const uint8_t *device_type, size_t device_type_len,
                                  const uint64_t *transports, size_t transports_len, uint8_t *output,
                                  size_t output_len, uint64_t *answer, size_t answer_len)
{
    (void)serial_number, (void)serial_number_len, (void)name, (void)name_len, (void)device_type;
    (void)device_type_len, (void)transports, (void)transports_len, (void)answer_len;
    return encode_next(DeviceInformation_fields, output, output_len, answer);
}

/* The reply to a question: an envelope with a response that carries device information or features. */
void nanopb_reply_prepare(uint64_t command, const uint8_t *serial_number, size_t serial_number_len, const uint8_t *name,
                          size_t name_len, const uint8_t *device_type, size_t device_type_len,
                          const uint64_t *transports, size_t transports_len, uint64_t features,
                          uint64_t device_attributes)
{
    ControlEnvelope *envelope = &prepare()->envelope;
    Response *response = &envelope->payload.response;

    envelope->command = (Command)command;
    envelope->which_payload = ControlEnvelope_response_tag;
    if (command == Command_GET_DEVICE_INFORMATION) {
        response->which_payload = Response_information_tag;
        fill_information(&response->payload.information, serial_number, serial_number_len, name, name_len, device_type,
                         device_type_len, transports, transports_len);
    } else {
        response->which_payload = Response_features_tag;
        response->payload.features.features = features;
        response->payload.features.device_attributes = device_attributes;
    }
}

void nanopb_features_prepare(uint64_t features, uint64_t device_attributes)
{
    DeviceFeatures *message = &prepare()->features;

    message->features = features;
    message->device_attributes = device_attributes;
}

uint64_t nanopb_features_write(uint64_t features, uint64_t device_attributes, uint8_t *output, size_t output_len,
                               uint64_t *answer, size_t answer_len)
{
    (void)features, (void)device_attributes, (void)answer_len;
    return encode_next(DeviceFeatures_fields, output, output_len, answer);
}

#define TELL(answer, field) \
    do { \
        (answer)[0] = place((field).bytes); \
        (answer)[1] = (field).size; \
    } while (0)

/* `name start, length, offset, size, signature start, length, field`; nanopb judges no profile. */
uint64_t nanopb_segment_read(const uint8_t *message, size_t message_len, uint64_t *answer, size_t answer_len)
{
    const UpdateComponentSegment *segment = &decoded.segment;

    (void)answer_len;
    if (!decode(UpdateComponentSegment_fields, message, message_len))
        return 30;
    TELL(answer, segment->component_name);
    answer[2] = segment->component_offset;
    answer[3] = segment->segment_size;
    TELL(answer + 4, segment->segment_signature);
    answer[6] = 0;
    return 0;
}

void nanopb_segment_prepare(const uint8_t *name, size_t name_len, uint64_t offset, uint64_t size,
                            const uint8_t *signature, size_t signature_len)
{
    UpdateComponentSegment *segment = &prepare()->segment;

    FILL(segment->component_name, name, name_len);
    segment->component_offset = (uint32_t)offset;
    segment->segment_size = (uint32_t)size;
    FILL(segment->segment_signature, signature, signature_len);
}

uint64_t nanopb_segment_write(const uint8_t *name, size_t name_len, uint64_t offset, uint64_t size,
                              const uint8_t *signature, size_t signature_len, uint8_t *output, size_t output_len,
                              uint64_t *answer, size_t answer_len)
{
    (void)name, (void)name_len, (void)offset, (void)size, (void)signature, (void)signature_len, (void)answer_len;
    answer[1] = 0;
    return encode_next(UpdateComponentSegment_fields, output, output_len, answer);
}

/* An ApplyFirmware's row: nine numbers, then six for each component. */
enum { AHEAD = 9, EACH = 6 };

uint64_t nanopb_apply_read(const uint8_t *message, size_t message_len, uint64_t *answer, size_t answer_len)
{
    const FirmwareInformation *information = &decoded.apply.firmware_information;
    uint64_t *cells = answer + AHEAD;

    if (!decode(ApplyFirmware_fields, message, message_len))
        return 30;
    answer[0] = decoded.apply.restart_required;
    answer[1] = information->version;
    TELL(answer + 2, information->name);
    TELL(answer + 4, information->locale);
    TELL(answer + 6, information->version_name);
    answer[8] = information->components_count;
    for (pb_size_t i = 0; i < information->components_count; i++, cells += EACH) {
        const FirmwareComponent *component = &information->components[i];

        cells[0] = component->version;
        TELL(cells + 1, component->name);
        cells[3] = component->size;
        TELL(cells + 4, component->signature);
    }
    memset(cells, 0, (size_t)(answer + answer_len - cells) * sizeof *cells);
    return 0;
}

void nanopb_apply_prepare(const uint64_t *row, size_t row_len, const uint8_t *texts, size_t texts_len)
{
    ApplyFirmware *apply = &prepare()->apply;
    FirmwareInformation *information = &apply->firmware_information;
    const uint64_t *cells = row + AHEAD;

    (void)row_len, (void)texts_len;
    apply->restart_required = row[0] != 0;
    apply->has_firmware_information = true;
    information->version = (uint32_t)row[1];
    FILL(information->name, texts + row[2], row[3]);
    FILL(information->locale, texts + row[4], row[5]);
    FILL(information->version_name, texts + row[6], row[7]);
    information->components_count = (pb_size_t)row[8];
    for (uint64_t i = 0; i < row[8]; i++, cells += EACH) {
        FirmwareComponent *component = &information->components[i];

        component->version = (uint32_t)cells[0];
        FILL(component->name, texts + cells[1], cells[2]);
        component->size = (uint32_t)cells[3];
        FILL(component->signature, texts + cells[4], cells[5]);
    }
}

uint64_t nanopb_apply_write(const uint64_t *row, size_t row_len, const uint8_t *texts, size_t texts_len,
                            uint8_t *output, size_t output_len, uint64_t *answer, size_t answer_len)
{
    (void)row, (void)row_len, (void)texts, (void)texts_len, (void)answer_len;
    return encode_next(ApplyFirmware_fields, output, output_len, answer);
}
