/* A registry of one node over two files of a folder: one_node FOLDER. It claims a name, and says who has it; what was
 * acknowledged is there the next time. This is the whole loop of a host, but for its network. */
#include <errno.h>
#include <fcntl.h>
#include <stdio.h>
#include <stdlib.h>
#include <string.h>
#include <sys/file.h>
#include <sys/stat.h>
#include <unistd.h>

#include "rr.h"

struct host {
  rr_node node;
  int files[2];
  uint8_t *room;
  size_t len;
};

/* The bytes of a synced file, in memory of its own. */
static uint8_t *read_area(int file, size_t *len) {
  struct stat stands;
  if (fsync(file) || fstat(file, &stands)) return NULL;
  *len = (size_t)stands.st_size;
  uint8_t *bytes = malloc(*len + 1);
  for (size_t at = 0; bytes && at < *len;) {
    ssize_t count = pread(file, bytes + at, *len - at, (off_t)at);
    if (count <= 0) { free(bytes); return NULL; }
    at += (size_t)count;
  }
  return bytes;
}

/* Whether a write was made and synced. */
static int write_area(int file, const uint8_t *bytes, size_t len, uint64_t at) {
  for (size_t done = 0; done < len;) {
    ssize_t count = pwrite(file, bytes + done, len - done, (off_t)(at + done));
    if (count <= 0) return 0;
    done += (size_t)count;
  }
  return fdatasync(file) == 0;
}

/* Opens both files of a folder, which nobody else has, and the node over them. */
static uint32_t open_host(struct host *host, const char *folder) {
  uint8_t *bytes[2];
  size_t lens[2];
  for (int area = 0; area < 2; area++) {
    char path[4096];
    snprintf(path, sizeof path, "%s/a%d", folder, area);
    host->files[area] = open(path, O_RDWR | O_CREAT | O_CLOEXEC, 0600);
    if (host->files[area] < 0 || flock(host->files[area], LOCK_EX | LOCK_NB)) return RR_DEVICE;
    bytes[area] = read_area(host->files[area], &lens[area]);
    if (!bytes[area]) return RR_DEVICE;
  }
  uint32_t is_new = lens[0] == 0 && lens[1] == 0; /* a host with more nodes keeps a mark of its own that a node was opened */
  uint32_t said = rr_open(&host->node, 1, 0, bytes[0], lens[0], bytes[1], lens[1], is_new);
  free(bytes[0]);
  free(bytes[1]);
  return said;
}

/* Does all that is due: writes, messages, answers. */
static uint32_t serve(struct host *host) {
  for (;;) {
    rr_call call;
    uint32_t said = rr_due(&host->node, &call, host->room, host->len);
    if (said) return said;
    if (call.kind) {
      if (call.len > host->len) {
        free(host->room);
        host->room = malloc(host->len = call.len);
        if (!host->room) return RR_OUT_OF_MEMORY;
        continue;
      }
      said = rr_done(&host->node, (uint32_t)write_area(host->files[call.area], host->room, call.len, call.at));
      if (said) return said;
      continue;
    }
    rr_message message;
    do {
      if ((said = rr_next_message(&host->node, &message, host->room, host->len))) return said;
      /* where kind is 1: send message.len bytes of room to node message.to. There are no others here */
    } while (message.kind);
    rr_ack ack;
    do {
      if ((said = rr_next_ack(&host->node, &ack))) return said;
      if (ack.reply) printf("request %llu of client %u: reply %u\n", (unsigned long long)ack.seq, ack.client, ack.reply);
    } while (ack.reply);
    said = rr_due(&host->node, &call, host->room, host->len); /* what the node heard of itself may want a write again */
    if (said || !call.kind) return said;
  }
}

int main(int argc, char **argv) {
  struct host host = {RR_NODE_INIT, {-1, -1}, malloc(4096), 4096};
  if (argc != 2 || !host.room) return 2;
  uint32_t said = open_host(&host, argv[1]);
  if (!said) said = serve(&host);
  rr_standing stands;
  if (!said) said = rr_status(&host.node, &stands);
  if (!said) said = rr_submit(&host.node, 7, stands.decided + 1, RR_CLAIM, (const uint8_t *)"lamp", 4, (const uint8_t *)"blue", 4, 0);
  if (!said) said = serve(&host);
  rr_holding holding;
  if (!said) said = rr_look(&host.node, (const uint8_t *)"lamp", 4, &holding, host.room, host.len);
  if (!said) printf("lamp: bound %u, owner %u, value %.*s\n", holding.is_bound, holding.owner, (int)holding.len, host.room);
  if (said) fprintf(stderr, "refusal %u\n", said);
  rr_close(&host.node);
  free(host.room);
  return said != 0;
}
