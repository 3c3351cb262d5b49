// A client of keystore2 in plain C11, without a library: docs/PROTOCOL.md, as far as two kinds of keys need it.
//
//     ./keystore2 init
//     ./keystore2 serve 7878 1 1 & sleep 1
//     cc -std=c11 -Wall -Wextra -o client examples/client.c
//     ./client 7878
//
// It imports an HMAC key and has a mac made, lets the service draw an AES key, seals a letter under it, opens it, shows that a changed byte
// is refused, and deletes both keys. It ends with status 1, and a line that says why, at the first thing that is not as it should be.
#define _POSIX_C_SOURCE 200809L
#include <arpa/inet.h>
#include <errno.h>
#include <inttypes.h>
#include <stdarg.h>
#include <stdint.h>
#include <stdio.h>
#include <stdlib.h>
#include <string.h>
#include <sys/socket.h>
#include <unistd.h>

enum { MOST_REQUEST = 4 + 262144, MOST_REPLY = 1048603, HEAD = 6, NONCE_BYTES = 12, WRONG_TAG = -30, APP = 10001 };
enum act { CONNECT = 1, GENERATE_KEY = 3, IMPORT_KEY = 4, CREATE_OPERATION = 5, FINISH = 8, DELETE_KEY = 11 };
enum field { OP = 3, USES = 9, DOMAIN = 10, NSPACE = 11, NONCE = 13, OUT = 14, ENTRIES = 17 };
// The numbers of tags, of which the upper four bits are the type of the value, and values of theirs.
enum tag {
    ALGORITHM = 0x10000002, PURPOSE = 0x20000001, BLOCK_MODE = 0x20000004, DIGEST = 0x20000005, PADDING = 0x20000006,
    KEY_SIZE = 0x30000003, MIN_MAC_LENGTH = 0x30000008, MAC_LENGTH = 0x300003eb, NO_AUTH_REQUIRED = 0x700001f7
};
enum value { ENCRYPT = 0, DECRYPT = 1, SIGN = 2, AES = 32, HMAC = 128, GCM = 32, NO_PADDING = 1, SHA_256 = 4, RAW = 3, BOOL = 7 };
static const uint32_t NONCE_TAG = 0x900003e9;

struct parameter { uint32_t tag, value; };
struct list { const struct parameter *rows; size_t count; };
#define LIST_OF(rows) ((struct list){rows, sizeof rows / sizeof rows[0]})

static int stream;
static uint8_t request[MOST_REQUEST], reply[MOST_REPLY];
static size_t request_length, reply_length;

static void fail(const char *form, ...) {
    va_list words;
    va_start(words, form);
    fputs("client: ", stderr);
    vfprintf(stderr, form, words);
    fputs("\n", stderr);
    exit(1);
}

// What is written into the request. Numbers are big-endian.
static void put_raw(const void *data, size_t length) {
    if (length > sizeof request - request_length) fail("a request of more than %d bytes", MOST_REQUEST - 4);
    if (length) memcpy(request + request_length, data, length);
    request_length += length;
}
static void put_number(uint64_t number, size_t width) {
    for (size_t left = width; left > 0; left--) put_raw(&(uint8_t){(uint8_t)(number >> 8 * (left - 1))}, 1);
}
static void put_bytes(const void *data, size_t length) {
    put_number(length, 4);
    put_raw(data, length);
}
// The descriptor of an app's own key: domain 0, no namespace, its alias, no blob.
static void put_key(const char *alias) {
    put_number(0, 4);
    put_number(0, 8);
    put_number(1, 1);
    put_bytes(alias, strlen(alias));
    put_number(0, 1);
}
// Writes at a place of the request how many bytes stand behind it.
static void set_length(size_t place) {
    size_t end = request_length, length = end - place - 4;
    request_length = place;
    put_number(length, 4);
    request_length = end;
}
// An authorization list, with a nonce where one is given.
static void put_list(struct list list, const uint8_t *nonce) {
    size_t place = request_length;
    put_number(0, 4);
    put_number(list.count + (nonce ? 1 : 0), 2);
    for (size_t row = 0; row < list.count; row++) {
        put_number(list.rows[row].tag, 4);
        put_number(list.rows[row].value, list.rows[row].tag >> 28 == BOOL ? 1 : 4);
    }
    if (nonce) {
        put_number(NONCE_TAG, 4);
        put_number(NONCE_BYTES, 2);
        put_raw(nonce, NONCE_BYTES);
    }
    set_length(place);
}
static void begin(enum act act) {
    request_length = 0;
    put_number(0, 4);
    put_number(act, 1);
}

// What is read of a reply.
static uint64_t number_at(const uint8_t *bytes, size_t width) {
    uint64_t number = 0;
    while (width--) number = number << 8 | *bytes++;
    return number;
}
static void receive(size_t length) {
    for (reply_length = 0; reply_length < length;) {
        ssize_t came = recv(stream, reply + reply_length, length - reply_length, 0);
        if (came == 0) fail("the service ended the connection");
        if (came < 0 && errno != EINTR) fail("recv: %s", strerror(errno));
        if (came > 0) reply_length += (size_t)came;
    }
}
// Sends the request and takes its reply; gives its code, and what stands behind it is for `field` to find.
static int32_t call(void) {
    set_length(0);
    for (size_t place = 0; place < request_length;) {
        ssize_t went = send(stream, request + place, request_length - place, MSG_NOSIGNAL);
        if (went < 0 && errno != EINTR) fail("send: %s", strerror(errno));
        if (went > 0) place += (size_t)went;
    }
    receive(4);
    uint64_t length = number_at(reply, 4);
    if (length < HEAD || length > MOST_REPLY) fail("a reply of %" PRIu64 " bytes", length);
    receive(length);
    return (int32_t)(uint32_t)number_at(reply, 4);
}
static void must(const char *what) {
    int32_t code = call();
    if (code != 0 && reply[4]) fail("%s: code %" PRId32 ", rule %c%d", what, code, reply[4], reply[5]);
    if (code != 0) fail("%s: code %" PRId32, what, code);
}
// The value of a field and its bytes. Fields stand in the order of their numbers.
static const uint8_t *field(enum field wanted, size_t *length) {
    size_t place = HEAD;
    while (place < reply_length && reply[place] <= wanted && reply[place] < ENTRIES) {
        uint8_t number = reply[place++];
        size_t size = number == USES || number == DOMAIN ? 4 : 8;
        if (number > NSPACE) {
            if (reply_length - place < 4) break;
            size = number_at(reply + place, 4);
            place += 4;
        }
        if (reply_length - place < size) break;
        *length = size;
        if (number == wanted) return reply + place;
        place += size;
    }
    fail("a reply without its field %d", wanted);
    return NULL;
}

// Begins an operation; its number.
static uint64_t start(const char *alias, struct list list, const uint8_t *nonce) {
    size_t length;
    begin(CREATE_OPERATION);
    put_key(alias);
    put_list(list, nonce);
    put_number(0, 1);
    must("createOperation");
    return number_at(field(OP, &length), 8);
}
static void put_finish(uint64_t op, const void *text, size_t length) {
    begin(FINISH);
    put_number(op, 8);
    put_bytes(text, length);
    put_number(0, 1);
}
// Ends an operation with its text, or the last of it; how many bytes are out.
static size_t finish(uint64_t op, const void *text, size_t length, uint8_t *out, size_t most) {
    size_t size;
    put_finish(op, text, length);
    must("finish");
    const uint8_t *bytes = field(OUT, &size);
    if (size > most) fail("an output of %zu bytes", size);
    if (size) memcpy(out, bytes, size);
    return size;
}
static void delete_key(const char *alias) {
    begin(DELETE_KEY);
    put_key(alias);
    must("deleteKey");
}
static void print_hex(const char *what, const uint8_t *bytes, size_t length) {
    printf("%s ", what);
    while (length--) printf("%02x", *bytes++);
    puts("");
}

// The first test case of RFC 4231.
static void show_mac(const char *alias) {
    static const struct parameter KEY[] = {{PURPOSE, SIGN}, {ALGORITHM, HMAC}, {DIGEST, SHA_256}, {MIN_MAC_LENGTH, 64}, {NO_AUTH_REQUIRED, 1}};
    static const struct parameter SIGNING[] = {{PURPOSE, SIGN}, {DIGEST, SHA_256}, {MAC_LENGTH, 256}};
    uint8_t material[20], mac[32];
    memset(material, 0x0b, sizeof material);
    begin(IMPORT_KEY);
    put_key(alias);
    put_list(LIST_OF(KEY), NULL);
    put_number(RAW, 4);
    put_bytes(material, sizeof material);
    must("importKey");
    print_hex("mac", mac, finish(start(alias, LIST_OF(SIGNING), NULL), "Hi There", 8, mac, sizeof mac));
    delete_key(alias);
}
// AES-GCM: the service draws the nonce, which is kept beside what is sealed, and the tag is the end of that.
static void show_sealing(const char *alias) {
    static const struct parameter KEY[] = {{PURPOSE, ENCRYPT}, {PURPOSE, DECRYPT}, {ALGORITHM, AES}, {KEY_SIZE, 256}, {BLOCK_MODE, GCM},
                                           {PADDING, NO_PADDING}, {MIN_MAC_LENGTH, 128}, {NO_AUTH_REQUIRED, 1}};
    static const struct parameter SEALING[] = {{PURPOSE, ENCRYPT}, {BLOCK_MODE, GCM}, {PADDING, NO_PADDING}, {MAC_LENGTH, 128}};
    static const struct parameter OPENING[] = {{PURPOSE, DECRYPT}, {BLOCK_MODE, GCM}, {PADDING, NO_PADDING}, {MAC_LENGTH, 128}};
    static const char text[] = "Dear Ben";
    uint8_t nonce[NONCE_BYTES], sealed[64], opened[64];
    size_t size;
    begin(GENERATE_KEY);
    put_key(alias);
    put_list(LIST_OF(KEY), NULL);
    must("generateKey");

    uint64_t op = start(alias, LIST_OF(SEALING), NULL);
    const uint8_t *drawn = field(NONCE, &size);
    if (size != sizeof nonce) fail("a nonce of %zu bytes", size);
    memcpy(nonce, drawn, sizeof nonce);
    size_t length = finish(op, text, strlen(text), sealed, sizeof sealed);
    print_hex("nonce", nonce, sizeof nonce);
    print_hex("sealed", sealed, length);

    size_t opened_length = finish(start(alias, LIST_OF(OPENING), nonce), sealed, length, opened, sizeof opened);
    printf("opened %.*s\n", (int)opened_length, (const char *)opened);

    op = start(alias, LIST_OF(OPENING), nonce);
    sealed[0] ^= 1;
    put_finish(op, sealed, length);
    int32_t code = call();
    if (code != WRONG_TAG) fail("a changed byte has code %" PRId32, code);
    puts("a changed byte is refused");
    delete_key(alias);
}

int main(int count, char **words) {
    char *end = NULL;
    unsigned long port = count == 2 ? strtoul(words[1], &end, 10) : 0;
    if (count != 2 || *end || port < 1 || port > 65535) fail("usage: client PORT");
    struct sockaddr_in to = {.sin_family = AF_INET, .sin_port = htons((uint16_t)port), .sin_addr.s_addr = htonl(INADDR_LOOPBACK)};
    stream = socket(AF_INET, SOCK_STREAM, 0);
    if (stream < 0 || connect(stream, (struct sockaddr *)&to, sizeof to)) fail("no service at port %lu: %s", port, strerror(errno));
    begin(CONNECT);
    put_number(APP, 4);
    must("connect");
    show_mac("client.c mac");
    show_sealing("client.c letters");
    // Behind this the service ends the connection; until then each reply has come.
    shutdown(stream, SHUT_WR);
    if (recv(stream, reply, 1, 0) != 0) fail("bytes behind the last reply");
    close(stream);
    return 0;
}
