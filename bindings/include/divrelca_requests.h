/* divrelca_requests.h: bytes and texts, and what requests and channels hold (RFC 4254 sections 6 and 7), for programs over divrelca.h. All
 * of it is inline. divrelca_easy.h includes it. */
#ifndef DIVRELCA_REQUESTS_H
#define DIVRELCA_REQUESTS_H
#include "divrelca.h"
#include <string.h>
#ifdef __cplusplus
extern "C" {
#endif

/* ---- bytes */

/* The bytes of a text of C, without its 0. */
static inline dv_bytes dv_words(const char *text) {
  dv_bytes bytes = DV_BYTES_INIT;
  bytes.at = (const uint8_t *)text;
  bytes.len = strlen(text);
  return bytes;
}
static inline bool dv_is(dv_bytes bytes, const char *text) { return bytes.len == strlen(text) && !memcmp(bytes.at, text, bytes.len); }
/* Copies bytes as a text of C. False, and an empty text, if they do not fit into `size`, which is not 0, or if one of them is 0. */
static inline bool dv_copy_text(dv_bytes from, char *to, size_t size) {
  bool fits = from.len < size && !memchr(from.at, 0, from.len);
  if (fits) memcpy(to, from.at, from.len);
  to[fits ? from.len : 0] = 0;
  return fits;
}
/* The same for people, of bytes that the peer chose: any but printable ASCII becomes \xNN, as does a backslash. What does not fit is left
 * out. `size` is not 0. */
static inline const char *dv_escape(dv_bytes from, char *to, size_t size) {
  static const char digits[] = "0123456789abcdef";
  size_t at = 0;
  for (size_t n = 0; n < from.len; n++) {
    uint8_t it = from.at[n];
    bool is_plain = it >= 32 && it < 127 && it != '\\';
    if (size - at <= (is_plain ? 1 : 4)) break;
    if (is_plain) {
      to[at++] = (char)it;
    } else {
      to[at++] = '\\', to[at++] = 'x', to[at++] = digits[it >> 4], to[at++] = digits[it & 15];
    }
  }
  to[at] = 0;
  return to;
}

/* ---- what requests and channels hold
 *
 * dv_build_* writes it into a buffer of `size` bytes and returns how many bytes it has, or 0 if it does not fit. dv_read_* is false if a
 * byte is missing or left over, and writes nothing then. The bytes that it shows are among those that it was given. A port above 65,535 is
 * refused by both. As a boolean any byte but 0 is true (RFC 4251 section 5). */

/* What was built into a buffer, as the data of an ask. */
static inline dv_bytes dv_built(const uint8_t *room, size_t len) {
  dv_bytes bytes = DV_BYTES_INIT;
  bytes.at = room;
  bytes.len = len;
  return bytes;
}

/* A place in a buffer, for the functions below: where bytes are read or written next, and how many are left. */
typedef struct dv_reading { const uint8_t *at; size_t left; bool is_good; } dv_reading;
typedef struct dv_writing { uint8_t *at; size_t left; bool is_good; } dv_writing;

static inline dv_reading dv_read_from(dv_bytes bytes) {
  dv_reading it;
  it.at = bytes.at, it.left = bytes.len, it.is_good = true;
  return it;
}
static inline bool dv_read_all(const dv_reading *it) { return it->is_good && !it->left; }
static inline dv_bytes dv_read_bytes(dv_reading *it, size_t len) {
  dv_bytes found = DV_BYTES_INIT;
  if (it->left < len) it->is_good = false;
  if (!it->is_good) return found;
  found = dv_built(it->at, len);
  it->at += len, it->left -= len;
  return found;
}
static inline uint32_t dv_read_u32(dv_reading *it) {
  dv_bytes b = dv_read_bytes(it, 4);
  return b.len == 4 ? (uint32_t)b.at[0] << 24 | (uint32_t)b.at[1] << 16 | (uint32_t)b.at[2] << 8 | b.at[3] : 0;
}
static inline uint32_t dv_read_port(dv_reading *it) {
  uint32_t port = dv_read_u32(it);
  if (port > 65535) it->is_good = false;
  return port;
}
static inline bool dv_read_flag(dv_reading *it) {
  dv_bytes b = dv_read_bytes(it, 1);
  return b.len == 1 && b.at[0];
}
static inline dv_bytes dv_read_text(dv_reading *it) {
  size_t len = dv_read_u32(it);
  return dv_read_bytes(it, len);
}

static inline dv_writing dv_write_to(uint8_t *to, size_t size) {
  dv_writing it;
  it.at = to, it.left = size, it.is_good = true;
  return it;
}
/* How many bytes were written into a buffer of this size, or 0. */
static inline size_t dv_written_in(const dv_writing *it, size_t size) { return it->is_good ? size - it->left : 0; }
static inline void dv_write_bytes(dv_writing *it, const uint8_t *bytes, size_t len) {
  if (it->left < len) it->is_good = false;
  if (!it->is_good) return;
  if (len) memcpy(it->at, bytes, len);
  it->at += len, it->left -= len;
}
static inline void dv_write_u32(dv_writing *it, uint32_t number) {
  const uint8_t bytes[4] = {(uint8_t)(number >> 24), (uint8_t)(number >> 16), (uint8_t)(number >> 8), (uint8_t)number};
  dv_write_bytes(it, bytes, 4);
}
static inline void dv_write_port(dv_writing *it, uint32_t port) {
  if (port > 65535) it->is_good = false;
  dv_write_u32(it, port);
}
static inline void dv_write_text(dv_writing *it, dv_bytes text) {
  if (text.len != (uint32_t)text.len) it->is_good = false;
  dv_write_u32(it, (uint32_t)text.len);
  dv_write_bytes(it, text.at, text.len);
}

/* exec: the command. subsystem: its name. signal: its name without SIG. */
static inline size_t dv_build_string(uint8_t *to, size_t size, dv_bytes text) {
  dv_writing it = dv_write_to(to, size);
  dv_write_text(&it, text);
  return dv_written_in(&it, size);
}
static inline bool dv_read_string(dv_bytes from, dv_bytes *text) {
  dv_reading it = dv_read_from(from);
  dv_bytes found = dv_read_text(&it);
  if (dv_read_all(&it)) *text = found;
  return dv_read_all(&it);
}

/* exit-status: the status. The reply to a tcpip-forward of port 0: the port. */
static inline size_t dv_build_number(uint8_t *to, size_t size, uint32_t number) {
  dv_writing it = dv_write_to(to, size);
  dv_write_u32(&it, number);
  return dv_written_in(&it, size);
}
static inline bool dv_read_number(dv_bytes from, uint32_t *number) {
  dv_reading it = dv_read_from(from);
  uint32_t found = dv_read_u32(&it);
  if (dv_read_all(&it)) *number = found;
  return dv_read_all(&it);
}

/* env: a variable and its value. */
static inline size_t dv_build_env(uint8_t *to, size_t size, dv_bytes name, dv_bytes value) {
  dv_writing it = dv_write_to(to, size);
  dv_write_text(&it, name), dv_write_text(&it, value);
  return dv_written_in(&it, size);
}
static inline bool dv_read_env(dv_bytes from, dv_bytes *name, dv_bytes *value) {
  dv_reading it = dv_read_from(from);
  dv_bytes first = dv_read_text(&it), second = dv_read_text(&it);
  if (dv_read_all(&it)) *name = first, *value = second;
  return dv_read_all(&it);
}

/* The size of a terminal, in characters and in pixels. */
typedef struct dv_size { uint32_t columns, rows, width, height; } dv_size;

static inline void dv_write_size(dv_writing *it, dv_size size) {
  dv_write_u32(it, size.columns), dv_write_u32(it, size.rows), dv_write_u32(it, size.width), dv_write_u32(it, size.height);
}
static inline dv_size dv_read_size(dv_reading *it) {
  dv_size size;
  size.columns = dv_read_u32(it), size.rows = dv_read_u32(it), size.width = dv_read_u32(it), size.height = dv_read_u32(it);
  return size;
}
/* window-change. */
static inline size_t dv_build_window_change(uint8_t *to, size_t size, dv_size window) {
  dv_writing it = dv_write_to(to, size);
  dv_write_size(&it, window);
  return dv_written_in(&it, size);
}
static inline bool dv_read_window_change(dv_bytes from, dv_size *window) {
  dv_reading it = dv_read_from(from);
  dv_size found = dv_read_size(&it);
  if (dv_read_all(&it)) *window = found;
  return dv_read_all(&it);
}
/* pty-req: what the variable TERM names, the size, and the modes (RFC 4254 section 8), which end with a byte of 0. */
static inline size_t dv_build_pty(uint8_t *to, size_t size, dv_bytes term, dv_size window, dv_bytes modes) {
  dv_writing it = dv_write_to(to, size);
  dv_write_text(&it, term), dv_write_size(&it, window), dv_write_text(&it, modes);
  return dv_written_in(&it, size);
}
static inline bool dv_read_pty(dv_bytes from, dv_bytes *term, dv_size *window, dv_bytes *modes) {
  dv_reading it = dv_read_from(from);
  dv_bytes first = dv_read_text(&it);
  dv_size size = dv_read_size(&it);
  dv_bytes last = dv_read_text(&it);
  if (dv_read_all(&it)) *term = first, *window = size, *modes = last;
  return dv_read_all(&it);
}

/* exit-signal: the name of the signal without SIG, whether a core was dumped, and words for people with the tag of their language. */
typedef struct dv_exit_signal { dv_bytes name; bool is_core_dumped; dv_bytes message, language; } dv_exit_signal;

static inline size_t dv_build_exit_signal(uint8_t *to, size_t size, const dv_exit_signal *signal) {
  const uint8_t flag = signal->is_core_dumped;
  dv_writing it = dv_write_to(to, size);
  dv_write_text(&it, signal->name), dv_write_bytes(&it, &flag, 1);
  dv_write_text(&it, signal->message), dv_write_text(&it, signal->language);
  return dv_written_in(&it, size);
}
static inline bool dv_read_exit_signal(dv_bytes from, dv_exit_signal *signal) {
  dv_reading it = dv_read_from(from);
  dv_exit_signal found;
  found.name = dv_read_text(&it), found.is_core_dumped = dv_read_flag(&it);
  found.message = dv_read_text(&it), found.language = dv_read_text(&it);
  if (dv_read_all(&it)) *signal = found;
  return dv_read_all(&it);
}

/* tcpip-forward and cancel-tcpip-forward: the address and the port to listen at. */
static inline size_t dv_build_listen(uint8_t *to, size_t size, dv_bytes address, uint32_t port) {
  dv_writing it = dv_write_to(to, size);
  dv_write_text(&it, address), dv_write_port(&it, port);
  return dv_written_in(&it, size);
}
static inline bool dv_read_listen(dv_bytes from, dv_bytes *address, uint32_t *port) {
  dv_reading it = dv_read_from(from);
  dv_bytes first = dv_read_text(&it);
  uint32_t second = dv_read_port(&it);
  if (dv_read_all(&it)) *address = first, *port = second;
  return dv_read_all(&it);
}
/* direct-tcpip: the host and the port to connect to. forwarded-tcpip: those at which somebody connected. Then the address and the port of
 * who connects. */
typedef struct dv_connection { dv_bytes host; uint32_t port; dv_bytes origin; uint32_t origin_port; } dv_connection;

static inline size_t dv_build_connection(uint8_t *to, size_t size, const dv_connection *connection) {
  dv_writing it = dv_write_to(to, size);
  dv_write_text(&it, connection->host), dv_write_port(&it, connection->port);
  dv_write_text(&it, connection->origin), dv_write_port(&it, connection->origin_port);
  return dv_written_in(&it, size);
}
static inline bool dv_read_connection(dv_bytes from, dv_connection *connection) {
  dv_reading it = dv_read_from(from);
  dv_connection found;
  found.host = dv_read_text(&it), found.port = dv_read_port(&it);
  found.origin = dv_read_text(&it), found.origin_port = dv_read_port(&it);
  if (dv_read_all(&it)) *connection = found;
  return dv_read_all(&it);
}

/* The data of DV_EXTENSIONS: the name and the value of the first extension, and the others left in `rest`. False where there is none, or it
 * is cut off, and nothing is written then. */
static inline bool dv_read_extension(dv_bytes *rest, dv_bytes *name, dv_bytes *value) {
  dv_reading it = dv_read_from(*rest);
  dv_bytes first = dv_read_text(&it), second = dv_read_text(&it);
  if (it.is_good) *name = first, *value = second, *rest = dv_built(it.at, it.left);
  return it.is_good;
}

#ifdef __cplusplus
}
#endif
#endif
