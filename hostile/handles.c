/* Calls of rr.h in random order, with random words: handles SEED MESSAGES [liar]. So many messages that nobody sent so are heard at least, over clusters of one to seven
   nodes in one process, whose areas and messages are in memory. Messages are real, altered, cut, lengthened, another node's, another cluster's,
   or random bytes. Writes are made, or fail and are torn. Handles are closed and opened again, also over bytes that are no area. With the linker's
   --wrap of malloc, realloc and free a request for memory fails now and then.

   First each refusal is made in turn, and the handle works behind it, or is down. Each answer has to be one that its call may give there. A refused call that changes nothing leaves the node as it stood. A node that is down
   refuses all but its status. Nothing is written behind a buffer, nor behind what the call says that it wrote. A real message is never
   malformed. What a node had decided it has still, also behind its close or a torn write. The last line is how often each answer came. A liar says
   that writes are done that it hasn't made: this must fail. */
#include <inttypes.h>
#include <stdio.h>
#include <stdlib.h>
#include <string.h>

#include "rr.h"

#define MOST_NODES 7
#define KEPT 64         /* messages that a cluster's network remembers */
#define LONGEST 300
#define GUARD 16
#define CALLS_OF_A_CLUSTER 6000
#define UNKNOWN 2

/* --- chance --- */

static uint64_t state;

static uint64_t draw(void) {
  state ^= state << 13;
  state ^= state >> 7;
  state ^= state << 17;
  return state * 0x2545F4914F6CDD1DULL >> 11;
}

static uint64_t below(uint64_t count) { return draw() % count; }
static int is_one_of(uint64_t count) { return below(count) == 0; }

/* --- memory, which is refused now and then --- */

static uint64_t refused_at;
static int was_refused;

#ifdef WRAPPED
void *__real_malloc(size_t);
void *__real_realloc(void *, size_t);
static int refuses(void) {
  if (!refused_at || --refused_at) return 0;
  return was_refused = 1;
}
void *__wrap_malloc(size_t size) { return refuses() ? NULL : __real_malloc(size); }
void *__wrap_realloc(void *old, size_t size) { return refuses() ? NULL : __real_realloc(old, size); }
#define OWN_MALLOC __real_malloc
#define OWN_REALLOC __real_realloc
#else
#define OWN_MALLOC malloc
#define OWN_REALLOC realloc
#endif

/* --- what is checked --- */

static uint64_t seed, calls, answers[32], heard[32], wrong, decided_in_all;
static int is_liar;
static const char *call_name = "none";

#define WANT(holds, ...)                                                                                    \
  do {                                                                                                      \
    if (!(holds)) {                                                                                         \
      fprintf(stderr, "handles: seed %" PRIu64 ", call %" PRIu64 ", %s: ", seed, calls, call_name);         \
      fprintf(stderr, __VA_ARGS__);                                                                         \
      fputc('\n', stderr);                                                                                  \
      exit(1);                                                                                              \
    }                                                                                                       \
  } while (0)

/* A buffer that is as long as it says, between bytes that must stay. */
struct buffer {
  uint8_t *all, *at;
  size_t len;
};

static struct buffer buffer_of(size_t len) {
  struct buffer it = {OWN_MALLOC(len + 2 * GUARD), NULL, len};
  if (!it.all) exit(2);
  memset(it.all, 0xA5, len + 2 * GUARD);
  it.at = it.all + GUARD;
  return it;
}

/* Nothing is written outside, nor behind the first `wrote` bytes. */
static void check_buffer(struct buffer it, size_t wrote) {
  WANT(wrote <= it.len, "%zu bytes written of %zu", wrote, it.len);
  for (size_t i = 0; i < GUARD; i++) WANT(it.all[i] == 0xA5, "written before its buffer");
  for (size_t i = GUARD + wrote; i < it.len + 2 * GUARD; i++) WANT(it.all[i] == 0xA5, "written behind what it says, byte %zu of %zu", i - GUARD, wrote);
  free(it.all);
}

/* --- nodes, areas and messages --- */

struct area {
  uint8_t *bytes;
  size_t len;
};

struct node {
  rr_node handle;
  int is_closed, is_down, number;
  struct area areas[2];
  int has_written; /* it isn't new any more */
  int is_due; /* 1: this; UNKNOWN: rr_due tells */
  rr_call due;
  uint8_t *due_bytes;
  rr_ack *known; /* what it had decided */
  uint64_t known_len, known_room;
  uint64_t least; /* so much is decided behind an opening */
};

struct message {
  uint8_t bytes[LONGEST];
  size_t len;
  uint32_t to;
};

struct cluster {
  uint32_t nodes;
  struct node its[MOST_NODES];
  struct message kept[KEPT];
  uint64_t count;
  uint64_t seq;
};

#define BIT(number) (1u << (number))
#define READS (BIT(RR_OK) | BIT(RR_DOWN))
#define TOLD (READS | BIT(RR_OUT_OF_MEMORY) | BIT(RR_TOO_LARGE))

/* Counts an answer, which is one of these; a refusal for want of memory has a cause. */
static uint32_t said(const char *call, uint32_t answer, uint32_t may) {
  call_name = call;
  calls++;
  WANT(answer < 32 && (may & BIT(answer)), "answer %u", answer);
  WANT(answer != RR_OUT_OF_MEMORY || was_refused, "no memory, but none was refused");
  answers[answer]++;
  refused_at = 0;
  was_refused = 0;
  return answer;
}

static rr_standing stands(struct node *it) {
  rr_standing now;
  memset(&now, 0xEE, sizeof now);
  uint32_t answer = said("status", rr_status(&it->handle, &now), READS);
  WANT((answer == RR_OK) == !it->is_closed, "answer %u, closed %d", answer, it->is_closed);
  if (it->is_closed) memset(&now, 0, sizeof now);
  WANT(now.is_up <= 1 && now.nodes <= MOST_NODES && now.suspects < 128, "it stands so: up %u, nodes %u", now.is_up, now.nodes);
  WANT(!(it->is_down || it->is_closed) || (!now.is_up && !now.decided && !now.facts), "it isn't down");
  WANT(rr_is_up(&it->handle) == now.is_up, "up or not, but another status");
  return now;
}

static int stays(const rr_standing *one, const rr_standing *other) {
  return one->decided == other->decided && one->facts == other->facts && one->suspects == other->suspects && one->is_up == other->is_up;
}

/* What is decided is what was, and more; the last places are read again, and some others. */
static void check_list(struct node *it, uint64_t decided) {
  WANT(decided >= it->known_len, "%" PRIu64 " are decided, and %" PRIu64 " were", decided, it->known_len);
  if (decided > it->known_room) {
    it->known_room = 2 * decided;
    it->known = OWN_REALLOC(it->known, it->known_room * sizeof *it->known);
  }
  uint64_t from = it->known_len > 4 ? it->known_len - 4 : 0;
  for (uint64_t place = from; place < decided; place++) {
    rr_ack ack;
    size_t len = 0;
    struct buffer out = buffer_of(64);
    uint32_t answer = said("decided", rr_decided(&it->handle, place, &ack, out.at, out.len, &len), BIT(RR_OK));
    WANT(answer == RR_OK && ack.reply >= 1 && ack.reply <= 8 && len >= 1, "place %" PRIu64 ": reply %u, name of %zu", place, ack.reply, len);
    check_buffer(out, len);
    if (place < it->known_len) {
      rr_ack was = it->known[place];
      WANT(was.client == ack.client && was.seq == ack.seq && was.reply == ack.reply && was.owner == ack.owner, "place %" PRIu64 " is another", place);
    }
    it->known[place] = ack;
  }
  it->known_len = decided;
}

/* Bytes of some length: random, or a name, or a value. */
static size_t words(uint8_t *to, int is_name) {
  static const char *names[] = {"lamp", "printer", "desk-1", "a", "desk-2"};
  if (!is_one_of(8)) {
    if (is_name) {
      const char *name = names[below(5)];
      memcpy(to, name, strlen(name));
      return strlen(name);
    }
    size_t len = below(65);
    memset(to, 'v', len);
    return len;
  }
  size_t len = below(71);
  for (size_t i = 0; i < len; i++) to[i] = (uint8_t)(is_one_of(2) ? 'a' + below(26) : below(256));
  return len;
}

/* --- the calls --- */

static void call_submit(struct cluster *all, struct node *it) {
  uint8_t name[80], value[80];
  size_t name_len = words(name, 1), value_len = words(value, 0);
  uint32_t client = is_one_of(20) ? (uint32_t)draw() : (uint32_t)below(4);
  uint64_t seq = is_one_of(3) ? below(1 + all->seq) : is_one_of(50) ? draw() : ++all->seq;
  uint32_t kind = is_one_of(16) ? (uint32_t)below(300) : 1 + (uint32_t)below(4);
  rr_standing before = stands(it);
  uint32_t answer = said("submit", rr_submit(&it->handle, client, seq, kind, name, name_len, value, value_len, (uint32_t)below(4)),
                         TOLD | BIT(RR_BAD_NAME) | BIT(RR_BAD_VALUE) | BIT(RR_MALFORMED));
  rr_standing after = stands(it);
  WANT(answer == RR_OK ? before.is_up == 1 : stays(&before, &after), "a refused call changed something");
}

static void keep(struct cluster *all, const uint8_t *bytes, size_t len, uint32_t to) {
  struct message *place = &all->kept[all->count++ % KEPT];
  memcpy(place->bytes, bytes, len);
  place->len = len;
  place->to = to;
}

/* A message is heard as it left. */
static void deliver(struct cluster *all, const struct message *message) {
  struct node *it = &all->its[message->to];
  uint32_t answer = said("hear of a real one", rr_hear(&it->handle, message->bytes, message->len), TOLD);
  heard[answer]++;
  WANT(answer != RR_OK || !it->is_down, "a node that is down hears");
}

/* Bytes come that nobody sent so. */
static void call_hear(struct cluster *all, struct node *it) {
  uint8_t bytes[2 * LONGEST];
  size_t len = 0;
  uint64_t way = below(8);
  wrong++;
  if (way < 6 && all->count) {
    const struct message *real = &all->kept[below(all->count < KEPT ? all->count : KEPT)];
    len = real->len;
    memcpy(bytes, real->bytes, len);
    if (way < 3)
      for (uint64_t times = 1 + below(3); times; times--) bytes[below(len)] = (uint8_t)(is_one_of(2) ? below(8) : below(256));
    else if (way == 3) len = below(len);
    else if (way == 4) { size_t more = 1 + below(LONGEST); memset(bytes + len, (int)below(256), more); len += more; }
  } else {
    len = below(2) ? below(12) : below(LONGEST);
    for (size_t i = 0; i < len; i++) bytes[i] = (uint8_t)(is_one_of(2) ? below(8) : below(256));
  }
  uint8_t *exact = OWN_MALLOC(len ? len : 1); /* so that a read behind its end is seen */
  memcpy(exact, bytes, len);
  rr_standing before = stands(it);
  uint32_t answer = said("hear", rr_hear(&it->handle, exact, len), TOLD | BIT(RR_MALFORMED));
  rr_standing after = stands(it);
  free(exact);
  heard[answer]++;
  WANT(answer != RR_MALFORMED || stays(&before, &after), "bytes that are no message changed something");
  WANT(answer != RR_OK || before.is_up, "a node that isn't up hears");
}

static uint32_t call_next_message(struct cluster *all, struct node *it, size_t room) {
  rr_message message;
  memset(&message, 0xEE, sizeof message);
  struct buffer out = buffer_of(room);
  uint32_t answer = said("next_message", rr_next_message(&it->handle, &message, out.at, out.len), TOLD);
  WANT(answer == RR_OK || message.kind == 0, "refused, and of kind %u", message.kind);
  WANT(message.kind <= 2 && (message.kind != 1 || (message.to < all->nodes && message.to != (uint32_t)it->number)), "kind %u to %u", message.kind, message.to);
  WANT(answer != RR_TOO_LARGE || room < 256, "room for 256 isn't enough");
  if (answer == RR_OK && message.kind == 1) keep(all, out.at, message.len, message.to);
  check_buffer(out, answer == RR_OK && message.kind == 1 ? message.len : 0);
  return answer ? 0 : message.kind;
}

static uint32_t call_next_ack(struct node *it) {
  rr_ack ack;
  memset(&ack, 0xEE, sizeof ack);
  uint32_t answer = said("next_ack", rr_next_ack(&it->handle, &ack), READS);
  WANT(ack.reply <= 8 && (answer == RR_OK || ack.reply == 0), "reply %u", ack.reply);
  return ack.reply;
}

static void call_due(struct node *it, size_t room) {
  rr_call call;
  memset(&call, 0xEE, sizeof call);
  struct buffer out = buffer_of(room);
  uint32_t answer = said("due", rr_due(&it->handle, &call, out.at, out.len), TOLD | BIT(RR_DEVICE));
  WANT(call.kind <= 1 && (answer == RR_OK || call.kind == 0), "kind %u", call.kind);
  WANT(!call.kind || (call.area < 2 && call.len > 0), "area %u, %zu bytes", call.area, call.len);
  if (answer == RR_DEVICE) {
    WANT(!rr_is_up(&it->handle), "a device failed, and it is up");
    it->is_down = 1;
  }
  /* Where the bytes have no room none of them is there. */
  size_t wrote = call.kind && call.len <= room ? call.len : 0;
  if (it->is_due == 1 && call.kind) WANT(call.area == it->due.area && call.at == it->due.at && call.len == it->due.len, "another write is due before this one is done");
  it->is_due = answer == RR_OK ? call.kind == 1 : it->is_down || it->is_closed ? 0 : UNKNOWN;
  if (answer == RR_OK && call.kind && wrote) {
    free(it->due_bytes);
    it->due = call;
    it->due_bytes = OWN_MALLOC(call.len);
    memcpy(it->due_bytes, out.at, call.len);
  } else if (answer == RR_OK && call.kind) {
    if (!it->due_bytes || it->due.len != call.len || it->due.at != call.at || it->due.area != call.area) {
      free(it->due_bytes);
      it->due_bytes = NULL;
    }
    it->due = call;
  }
  check_buffer(out, wrote);
}

/* The due write is made, or the first `most` bytes of it, and then others. */
static void make_write(struct node *it, size_t most) {
  struct area *area = &it->areas[it->due.area];
  size_t end = (size_t)it->due.at + it->due.len;
  WANT(it->due.at <= area->len, "a write behind the end of its area");
  if (end > area->len) {
    area->bytes = OWN_REALLOC(area->bytes, end);
    memset(area->bytes + area->len, 0, end - area->len);
    area->len = end;
  }
  for (size_t i = 0; i < it->due.len; i++) area->bytes[it->due.at + i] = i < most ? it->due_bytes[i] : (uint8_t)below(256);
  it->has_written = 1;
}

static void call_done(struct node *it, int is_done) {
  if (it->is_due == UNKNOWN || (it->is_due && !it->due_bytes)) call_due(it, 1 << 18);
  if (it->is_due == UNKNOWN) return;
  int was_due = it->is_due;
  if (was_due && !(is_liar && is_done && is_one_of(50))) make_write(it, is_done ? it->due.len : below(it->due.len + 1));
  uint32_t answer = said("done", rr_done(&it->handle, is_done ? 1 + (uint32_t)below(3) : 0),
                         READS | BIT(RR_DEVICE) | BIT(RR_STRANGE_MARK) | BIT(RR_OUT_OF_MEMORY));
  if (!was_due) {
    WANT(answer == (it->is_closed ? RR_DOWN : RR_STRANGE_MARK), "nothing was due, answer %u", answer);
    return;
  }
  WANT(is_done || answer == RR_DEVICE, "it couldn't be done, answer %u", answer);
  WANT(answer != RR_STRANGE_MARK, "a write was due");
  it->is_due = answer ? 0 : UNKNOWN; /* the gate behind a body */
  free(it->due_bytes);
  it->due_bytes = NULL;
  if (answer) it->is_down = 1;
}

/* Reads who has a name: how many bytes are in the buffer. */
static size_t read_look(struct node *it, struct buffer out) {
  uint8_t name[80];
  size_t name_len = words(name, 1);
  rr_holding holding;
  memset(&holding, 0xEE, sizeof holding);
  uint32_t answer = said("look", rr_look(&it->handle, name, name_len, &holding, out.at, out.len), READS | BIT(RR_BAD_NAME) | BIT(RR_TOO_LARGE));
  WANT(holding.is_bound <= 1 && (!answer || !holding.is_bound), "bound %u", holding.is_bound);
  WANT(answer != RR_TOO_LARGE || out.len < 64, "room for 64 isn't enough");
  return holding.is_bound ? holding.len : 0;
}

/* Reads the bound name at a place. */
static size_t read_bound(struct node *it, struct buffer out) {
  struct buffer name = buffer_of(is_one_of(3) ? below(64) : 64);
  rr_binding binding;
  memset(&binding, 0xEE, sizeof binding);
  size_t place = is_one_of(4) ? draw() : below(8);
  uint32_t answer = said("bound", rr_bound(&it->handle, place, &binding, name.at, name.len, out.at, out.len), READS | BIT(RR_TOO_LARGE));
  WANT(binding.is_bound <= 1 && (!answer || !binding.is_bound), "bound %u", binding.is_bound);
  if (answer == RR_TOO_LARGE) free(name.all); /* the name may be there already */
  else check_buffer(name, binding.is_bound ? binding.name_len : 0);
  return binding.is_bound ? binding.len : 0;
}

/* Reads a place of the decided list. */
static size_t read_decided(struct node *it, struct buffer out) {
  size_t len = 0;
  rr_ack ack;
  memset(&ack, 0xEE, sizeof ack);
  uint32_t answer = said("decided", rr_decided(&it->handle, is_one_of(4) ? draw() : below(100), &ack, out.at, out.len, &len), READS | BIT(RR_TOO_LARGE));
  WANT(ack.reply <= 8 && (!answer || !ack.reply), "reply %u", ack.reply);
  return answer ? 0 : len;
}

/* Reads where a name changes next. */
static size_t read_watch(struct node *it, uint64_t decided) {
  uint8_t name[80];
  size_t place = 99, name_len = words(name, 1);
  uint32_t answer = said("watch", rr_watch(&it->handle, is_one_of(4) ? draw() : below(100), name, name_len, &place), READS | BIT(RR_BAD_NAME));
  WANT(answer || place <= decided, "place %zu of %" PRIu64, place, decided);
  return 0;
}

static void call_read(struct node *it) {
  rr_standing before = stands(it);
  struct buffer out = buffer_of(is_one_of(3) ? below(64) : 64);
  uint64_t way = below(4);
  size_t wrote = way == 0 ? read_look(it, out) : way == 1 ? read_bound(it, out) : way == 2 ? read_decided(it, out) : read_watch(it, before.decided);
  check_buffer(out, wrote);
  rr_standing after = stands(it);
  WANT(stays(&before, &after), "what is read changed something");
}

static void call_snapshot(struct node *it) {
  rr_standing before = stands(it);
  uint32_t answer = said("snapshot", rr_snapshot(&it->handle), TOLD | BIT(RR_BUSY) | BIT(RR_DEVICE));
  if (answer == RR_DEVICE) it->is_down = 1;
  rr_standing after = stands(it);
  if (answer && !it->is_down) WANT(stays(&before, &after), "a refused call changed something");
  if (answer != RR_BUSY && !it->is_closed && !it->is_down) it->is_due = UNKNOWN;
  if (answer == RR_BUSY) WANT(before.is_up, "busy, and not up");
}

static void call_tell(struct cluster *all, struct node *it) {
  if (is_one_of(3)) {
    rr_standing before = stands(it);
    uint32_t bits = is_one_of(4) ? (uint32_t)draw() : (uint32_t)below(1u << all->nodes);
    uint32_t answer = said("suspect", rr_suspect(&it->handle, bits), TOLD | BIT(RR_BAD_NODES));
    rr_standing after = stands(it);
    WANT(answer == RR_OK ? bits < 1u << all->nodes : stays(&before, &after), "bits %u, answer %u", bits, answer);
  } else {
    said("tick", rr_tick(&it->handle), TOLD);
  }
}

/* --- closing and opening --- */

static void close_node(struct node *it) {
  rr_close(&it->handle);
  rr_close(&it->handle); /* which does nothing */
  it->is_closed = 1;
  it->is_due = it->is_down = 0;
  free(it->due_bytes);
  it->due_bytes = NULL;
  stands(it);
}

static void open_node(struct cluster *all, struct node *it) {
  uint32_t may = BIT(RR_OK) | BIT(RR_OUT_OF_MEMORY) | BIT(RR_DEVICE);
  uint32_t answer = said("open", rr_open(&it->handle, all->nodes, (uint32_t)it->number, it->areas[0].bytes, it->areas[0].len, it->areas[1].bytes, it->areas[1].len,
                                         !it->has_written), may | (it->is_closed ? 0 : BIT(RR_BUSY)));
  if (!it->is_closed) {
    WANT(answer == RR_BUSY || answer == RR_OUT_OF_MEMORY, "it is open already, answer %u", answer);
    return;
  }
  if (answer) return;
  it->is_closed = it->is_down = 0;
  it->is_due = UNKNOWN;
}

/* What a host does until nothing is due, so that the node is up. */
static void settle(struct cluster *all, struct node *it) {
  if (it->is_closed) open_node(all, it);
  for (int times = 0; times < 40 && !it->is_closed && !it->is_down; times++) {
    call_due(it, 1 << 12);
    if (!it->is_due) break;
    call_done(it, 1);
  }
  if (it->is_closed || it->is_down) return;
  rr_standing now = stands(it);
  if (now.is_up) check_list(it, now.decided);
}

/* Bytes that are no areas of this node, or not such as it says; a handle of its own is closed behind it. */
static void open_wrongly(struct cluster *all, struct node *it) {
  rr_node other = RR_NODE_INIT;
  uint8_t *first = OWN_MALLOC(it->areas[0].len + 1), *second = OWN_MALLOC(it->areas[1].len + 1);
  size_t lens[2] = {it->areas[0].len, it->areas[1].len};
  if (lens[0]) memcpy(first, it->areas[0].bytes, lens[0]);
  if (lens[1]) memcpy(second, it->areas[1].bytes, lens[1]);
  uint32_t nodes = all->nodes, number = (uint32_t)it->number, is_new = !it->has_written;
  switch (below(6)) {
    case 0: nodes = (uint32_t)below(300); break;
    case 1: number = (uint32_t)below(300); break;
    case 2: is_new = !is_new; break;
    case 3: if (lens[0]) for (int times = 0; times < 3; times++) first[below(lens[0])] = (uint8_t)below(256); break;
    case 4: if (lens[0]) lens[0] = below(lens[0]); break;
    default: { uint8_t *swapped = first; size_t len = lens[0]; first = second; second = swapped; lens[0] = lens[1]; lens[1] = len; }
  }
  uint32_t may = BIT(RR_OK) | BIT(RR_OUT_OF_MEMORY) | BIT(RR_DEVICE) | BIT(RR_DAMAGED) | BIT(RR_BAD_NODES) | BIT(RR_TOO_LARGE);
  uint32_t answer = said("open of wrong bytes", rr_open(&other, nodes, number, first, lens[0], second, lens[1], is_new), may);
  WANT(answer != RR_OK || (nodes >= 1 && nodes <= 7 && number < nodes), "node %u of %u", number, nodes);
  WANT(answer != RR_OK || !is_new == (lens[0] + lens[1] > 0), "new %u with %zu bytes", is_new, lens[0] + lens[1]);
  for (int times = 0; times < 8 && !answer; times++) {
    rr_call call;
    struct buffer out = buffer_of(below(300));
    uint32_t told = said("due of wrong bytes", rr_due(&other, &call, out.at, out.len), TOLD | BIT(RR_DEVICE));
    check_buffer(out, !told && call.kind && call.len <= out.len ? call.len : 0);
    answer = told ? told : said("done of wrong bytes", rr_done(&other, 1), READS | BIT(RR_OUT_OF_MEMORY) | BIT(RR_STRANGE_MARK) | BIT(RR_DEVICE) | BIT(RR_DAMAGED));
  }
  rr_close(&other);
  free(first);
  free(second);
}

/* --- a cluster's life --- */

static void arm(void) {
#ifdef WRAPPED
  refused_at = is_one_of(40) ? 1 + below(6) : 0;
#endif
}

static void step(struct cluster *all) {
  struct node *it = &all->its[below(all->nodes)];
  arm();
  switch (below(20)) {
    case 0: case 1: call_submit(all, it); break;
    case 2: call_tell(all, it); break;
    case 3: call_due(it, is_one_of(2) ? below(200) : 1 << 12); break;
    case 4: call_done(it, !is_one_of(60)); break;
    case 5: case 6: case 7: case 8:
      for (uint64_t times = 1 + below(8); times; times--) { arm(); call_hear(all, it); }
      break;
    case 9: call_next_message(all, it, is_one_of(4) ? below(256) : 256); break;
    case 10: call_next_ack(it); break;
    case 11: call_read(it); break;
    case 12: if (is_one_of(20)) call_snapshot(it); break;
    case 13: if (is_one_of(100)) close_node(it); break;
    case 14: if (is_one_of(10)) open_wrongly(all, it); break;
    case 15: if (is_one_of(20)) open_node(all, it); break;
    default:
      /* what a host does */
      if (it->is_down && is_one_of(4)) close_node(it);
      settle(all, it);
      while (call_next_message(all, it, 256)) {}
      while (call_next_ack(it)) {}
      for (uint64_t times = 0; all->count && times < 12; times++) deliver(all, &all->kept[(all->count - 1 - below(all->count < 24 ? all->count : 24)) % KEPT]);
  }
}

static void live(uint32_t nodes, uint64_t wanted) {
  static struct cluster all;
  memset(&all, 0, sizeof all);
  all.nodes = nodes;
  for (uint32_t number = 0; number < nodes; number++) {
    struct node *it = &all.its[number];
    it->number = (int)number;
    it->is_closed = 1;
    for (int area = 0; area < 2; area++) it->areas[area].bytes = OWN_MALLOC(1);
    settle(&all, it);
  }
  for (uint64_t begun = calls; calls - begun < wanted;) step(&all);
  for (uint32_t number = 0; number < nodes; number++) {
    struct node *it = &all.its[number];
    refused_at = 0;
    close_node(it);
    settle(&all, it);
    rr_standing now = stands(it);
    WANT(now.is_up && now.decided >= it->known_len, "node %u isn't there again", number);
    decided_in_all += now.decided;
    close_node(it);
    free(it->areas[0].bytes);
    free(it->areas[1].bytes);
    free(it->known);
  }
}

/* --- each refusal in turn --- */

/* The handle works: a new command is answered. */
static void works(struct cluster *all, struct node *it) {
  uint64_t seq = ++all->seq;
  said("tick", rr_tick(&it->handle), BIT(RR_OK));
  said("submit", rr_submit(&it->handle, 9, seq, RR_CLAIM, (const uint8_t *)"lamp", 4, (const uint8_t *)"x", 1, 0), BIT(RR_OK));
  for (int times = 0; times < 8; times++) {
    settle(all, it);
    while (call_next_message(all, it, 256)) {}
  }
  rr_ack ack;
  do said("next_ack", rr_next_ack(&it->handle, &ack), BIT(RR_OK));
  while (ack.reply && ack.seq != seq); /* the answer to a request before may come first */
  WANT(ack.client == 9 && ack.seq == seq && ack.reply, "request %" PRIu64 " isn't answered, but %" PRIu64, seq, ack.seq);
}

/* Refused so, and the handle works behind it. */
#define REFUSED(number, call)         \
  do {                                \
    said(#call, (call), BIT(number)); \
    works(all, it);                   \
  } while (0)

#ifdef WRAPPED
/* Memory is refused at each of the first requests of an opening, of a command and of its writes, in turn. */
static void refuse_memory(struct cluster *all, struct node *it) {
  for (uint64_t at = 1; at <= 40; at++) {
    close_node(it);
    refused_at = at;
    open_node(all, it);
    settle(all, it);
    refused_at = at;
    uint64_t seq = ++all->seq;
    said("submit", rr_submit(&it->handle, 9, seq, RR_UPDATE, (const uint8_t *)"lamp", 4, (const uint8_t *)"y", 1, 0), BIT(RR_OK) | BIT(RR_OUT_OF_MEMORY));
    for (int times = 0; times < 12 && !it->is_down; times++) {
      refused_at = at;
      call_due(it, 1 << 12);
      refused_at = at;
      if (!it->is_down && it->is_due == 1) call_done(it, 1);
    }
    if (it->is_down) close_node(it);
    settle(all, it);
    while (call_next_message(all, it, 256)) {}
    settle(all, it);
    while (call_next_ack(it)) {}
    works(all, it);
  }
}
#endif

static const uint8_t lamp[] = "lamp", bytes[] = "no message, but some bytes that are longer than a name may be: 65";

/* A closed handle refuses all, and stays closed behind an opening that is refused. */
static void refuse_closed(rr_node *handle) {
  uint8_t out[4];
  rr_holding holding;
  rr_call call;
  rr_message message;
  rr_ack ack;
  said("tick of a closed handle", rr_tick(handle), BIT(RR_DOWN));
  said("due of a closed handle", rr_due(handle, &call, out, 0), BIT(RR_DOWN));
  said("next_message of a closed handle", rr_next_message(handle, &message, out, 0), BIT(RR_DOWN));
  said("next_ack of a closed handle", rr_next_ack(handle, &ack), BIT(RR_DOWN));
  said("look of a closed handle", rr_look(handle, lamp, 4, &holding, out, 0), BIT(RR_DOWN));
  said("open of 8", rr_open(handle, 8, 0, bytes, 0, bytes, 0, 1), BIT(RR_BAD_NODES));
  said("open of node 3 of 3", rr_open(handle, 3, 3, bytes, 0, bytes, 0, 1), BIT(RR_BAD_NODES));
  said("open of files that vanished", rr_open(handle, 1, 0, bytes, 0, bytes, 0, 0), BIT(RR_DAMAGED));
}

/* What a node that is up refuses, it refuses alone. */
static void refuse_open(struct cluster *all, struct node *it) {
  rr_node *handle = &it->handle;
  rr_holding holding;
  uint8_t out[4];
  REFUSED(RR_BUSY, rr_open(handle, 1, 0, bytes, 0, bytes, 0, 1));
  REFUSED(RR_BAD_NODES, rr_suspect(handle, 2));
  REFUSED(RR_BAD_NODES, rr_suspect(handle, 128));
  REFUSED(RR_BAD_NAME, rr_submit(handle, 1, 1, RR_CLAIM, bytes, 10, lamp, 4, 0));
  REFUSED(RR_BAD_NAME, rr_submit(handle, 1, 1, RR_CLAIM, lamp, 0, lamp, 4, 0));
  REFUSED(RR_BAD_NAME, rr_look(handle, bytes, 10, &holding, out, 4));
  REFUSED(RR_BAD_VALUE, rr_submit(handle, 1, 1, RR_CLAIM, lamp, 4, bytes, 65, 0));
  REFUSED(RR_MALFORMED, rr_submit(handle, 1, 1, 0, lamp, 4, lamp, 4, 0));
  REFUSED(RR_MALFORMED, rr_submit(handle, 1, 1, 5, lamp, 4, lamp, 4, 0));
  REFUSED(RR_MALFORMED, rr_hear(handle, bytes, 65));
  REFUSED(RR_MALFORMED, rr_hear(handle, bytes, 0));
  REFUSED(RR_STRANGE_MARK, rr_done(handle, 1));
  REFUSED(RR_STRANGE_MARK, rr_done(handle, 0));
  REFUSED(RR_TOO_LARGE, rr_look(handle, lamp, 4, &holding, out, 0));
  said("snapshot", rr_snapshot(handle), BIT(RR_OK));
  it->is_due = UNKNOWN;
  REFUSED(RR_BUSY, rr_snapshot(handle));
}

/* A write fails: the node is down, and opened again it works. */
static void refuse_down(struct cluster *all, struct node *it) {
  rr_node *handle = &it->handle;
  rr_call call;
  uint8_t out[4];
  said("submit", rr_submit(handle, 1, 1, RR_CLAIM, lamp, 4, lamp, 4, 0), BIT(RR_OK));
  call_due(it, 4096);
  call_done(it, 0);
  WANT(it->is_down, "a write failed, and it is up");
  said("tick of one that is down", rr_tick(handle), BIT(RR_DOWN));
  said("submit to one that is down", rr_submit(handle, 1, 1, RR_CLAIM, lamp, 4, lamp, 4, 0), BIT(RR_DOWN));
  said("hear of one that is down", rr_hear(handle, bytes, 65), BIT(RR_DOWN) | BIT(RR_MALFORMED));
  said("done of one that is down", rr_done(handle, 1), BIT(RR_STRANGE_MARK));
  said("due of one that is down", rr_due(handle, &call, out, 4), BIT(RR_DOWN));
  stands(it);
  close_node(it);
  settle(all, it);
  works(all, it);
}

static void each_refusal(void) {
  static struct cluster all;
  all.nodes = 1;
  struct node *it = &all.its[0];
  it->is_closed = 1;
  for (int area = 0; area < 2; area++) it->areas[area].bytes = OWN_MALLOC(1);
  refuse_closed(&it->handle);
  settle(&all, it);
  works(&all, it);
  refuse_open(&all, it);
  refuse_down(&all, it);
#ifdef WRAPPED
  refuse_memory(&all, it);
#endif
  close_node(it);
  free(it->areas[0].bytes);
  free(it->areas[1].bytes);
  free(it->known);
}

int main(int argc, char **argv) {
  is_liar = argc == 4 && !strcmp(argv[3], "liar");
  if (argc != 3 + is_liar) return 2;
  seed = strtoull(argv[1], NULL, 10);
  state = seed * 0x9E3779B97F4A7C15ULL | 1;
  each_refusal();
  uint64_t wanted = strtoull(argv[2], NULL, 10), messages = 0, lives = 0;
  while (messages < wanted) {
    live(1 + (uint32_t)below(MOST_NODES), CALLS_OF_A_CLUSTER < 12 * wanted ? CALLS_OF_A_CLUSTER : 12 * wanted);
    lives++;
    messages = wrong;
  }
  for (int answer = messages = 0; answer < 32; answer++) messages += heard[answer];
  printf("calls %" PRIu64 ", clusters %" PRIu64 ", messages %" PRIu64 ", wrong ones %" PRIu64 ", decided %" PRIu64 ", answers", calls, lives,
         messages, wrong, decided_in_all);
  for (int answer = 0; answer < 32; answer++)
    if (answers[answer]) printf(" %d:%" PRIu64, answer, answers[answer]);
  putchar('\n');
  return 0;
}
