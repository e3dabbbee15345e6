/* The parts of an ELF file, for those that read its headers. */
#ifndef ELF_PARTS_H
#define ELF_PARTS_H

#include <elf.h>

#include "merger.h"

struct symbol {
    uint64_t start;
    uint64_t size;
    const char *name;
};

/* binaries.c */
const void *part(const struct binary *binary, uint64_t start, uint64_t length);
const void *table_part(const struct binary *binary, uint64_t start, uint64_t length);
const Elf64_Ehdr *header_of(const struct binary *binary);
const Elf64_Shdr *sections_of(const struct binary *binary, unsigned *count);

#endif
