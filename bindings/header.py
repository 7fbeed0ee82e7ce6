#!/usr/bin/env python3
"""Writes rr.h, the header of the library for C, from the text of its exports: bindings/header.py > rr.h. So it can't say another signature."""
import re
import textwrap

from exports import exports, structs

TOP = """/* rr.h: one node of a Maroonburin cluster, for a program with its own network, disk and clock.
 *
 * A handle is a struct of yours, RR_NODE_INIT at first. Give it to one call at a time, on one thread. Don't copy it, and don't write it.
 * Closed, it answers RR_DOWN. Buffers are yours: a slice is a pointer, never null, and a length, and nothing that the library allocates is
 * handed out. Memory comes from malloc, realloc and free.
 *
 * A node makes no call of its own. Behind each call that tells it something, do what it asks: write what rr_due says, sync that area, and say so by
 * rr_done; send what rr_next_message gives; tell clients what rr_next_ack says; and again, until there is nothing. This file is written
 * by bindings/header.py from the text of the exports; docs/EMBEDDING.md says more. */
#ifndef RR_H
#define RR_H
#include <stddef.h>
#include <stdint.h>
#ifdef __cplusplus
extern "C" {
#endif

/* What a handle is. Its fields are the library's. */
typedef struct { uint8_t is_open; void *at; } rr_node;
#define RR_NODE_INIT {0, 0}

"""
PLAIN = {"u8": "uint8_t", "u32": "uint32_t", "u64": "uint64_t", "usize": "size_t"}
REFUSALS = "OUT_OF_MEMORY DEVICE DAMAGED FAILED DOWN BAD_NODES BAD_NAME BAD_VALUE LIST_FULL ROUNDS_OUT MALFORMED STRANGE_MARK BUSY".split()
NUMBERS = f"""/* What a call answers: RR_OK, or the number of a refusal. */
enum {{ RR_OK = 0, {", ".join(f"RR_{name} = {number}" for number, name in enumerate(REFUSALS, 1))}, RR_TOO_LARGE = 16 }};

/* The kinds of a command, and the replies of the registry. */
enum {{ RR_CLAIM = 1, RR_UPDATE = 2, RR_RELEASE = 3, RR_TRANSFER = 4 }};
enum {{ RR_CLAIMED = 1, RR_UPDATED = 2, RR_RELEASED = 3, RR_TRANSFERRED = 4, RR_TAKEN = 5, RR_UNKNOWN = 6, RR_NOT_OWNER = 7, RR_FULL = 8 }};

"""
END = """/* Gives a node up: what isn't synced is lost, as in a crash. Closing a closed handle does nothing. */
static inline void rr_close(rr_node *node) {
  rr_node given = *node, none = RR_NODE_INIT;
  *node = none;
  rr_close_handle(given);
}

#ifdef __cplusplus
}
#endif
#endif
"""


def named(name):
    """A struct's name in C: RrCall is rr_call."""
    return re.sub(r"(?<!^)(?=[A-Z])", "_", name).lower()


def declared(word, kind):
    """A parameter in C."""
    if kind in ("&[u8]", "&mut [u8]"):
        return f"{'const ' if kind == '&[u8]' else ''}uint8_t *{word}, size_t {word}_len"
    if kind.startswith("&mut "):
        pointed = kind.removeprefix("&mut ")
        return f"{PLAIN.get(pointed) or named(pointed)} *{word}"
    return f"{PLAIN.get(kind) or named(kind)} {word}"


def comment(words):
    """A comment in lines of 110 signs."""
    return "\n".join(textwrap.wrap(f"/* {words} */", 110, subsequent_indent=" * "))


def main():
    print(TOP + NUMBERS, end="")
    for name, words, fields in structs():
        inside = " ".join(f"{PLAIN[kind]} {field};" for field, kind in fields)
        print(f"{comment(words)}\ntypedef struct {{ {inside} }} {named(name)};\n")
    for name, words, parameters, answer in exports():
        given = ", ".join(declared(*parameter) for parameter in parameters if parameter[1] != "Global")
        head = textwrap.wrap(f"{PLAIN.get(answer, 'void')} {name}({given or 'void'});", 110, subsequent_indent="    ")
        print(f"{comment(words)}\n" + "\n".join(head) + "\n")
    print(END, end="")


if __name__ == "__main__":
    main()
