/* ELF files: their sections, the code in them, and the symbols of functions and variables. */
#define _GNU_SOURCE
#include <fcntl.h>
#include <stdlib.h>
#include <string.h>
#include <sys/mman.h>
#include <sys/stat.h>
#include <unistd.h>

#include "elf-parts.h"

struct binary **binaries;
size_t binary_count;

/* Gives bytes of the file, or NULL where it hasn't got them all. */
const void *part(const struct binary *binary, uint64_t start, uint64_t length)
{
    bool fits = start <= binary->length && length <= binary->length - start;
    return fits ? binary->bytes + start : NULL;
}

/* Gives a table of the file, or NULL where it hasn't got all of it or the rows don't stand where they may be read. */
const void *table_part(const struct binary *binary, uint64_t start, uint64_t length)
{
    return start % sizeof(uint64_t) == 0 ? part(binary, start, length) : NULL;
}

static void map_file(struct binary *binary)
{
    struct stat status;
    int file = open(binary->path, O_RDONLY | O_CLOEXEC);
    if (file < 0)
        return;
    if (fstat(file, &status) == 0 && S_ISREG(status.st_mode) && status.st_size > 0) {
        void *bytes = mmap(NULL, (size_t)status.st_size, PROT_READ, MAP_PRIVATE, file, 0);
        if (bytes != MAP_FAILED) {
            binary->bytes = bytes;
            binary->length = (uint64_t)status.st_size;
        }
    }
    close(file);
}

const Elf64_Ehdr *header_of(const struct binary *binary)
{
    const Elf64_Ehdr *header = part(binary, 0, sizeof *header);
    if (!header || memcmp(header->e_ident, ELFMAG, SELFMAG) != 0 || header->e_ident[EI_CLASS] != ELFCLASS64 ||
        header->e_shentsize != sizeof(Elf64_Shdr) || header->e_phentsize != sizeof(Elf64_Phdr))
        return NULL;
    return header;
}

const Elf64_Shdr *sections_of(const struct binary *binary, unsigned *count)
{
    const Elf64_Ehdr *header = header_of(binary);
    *count = header ? header->e_shnum : 0;
    return header ? table_part(binary, header->e_shoff, (uint64_t)*count * sizeof(Elf64_Shdr)) : NULL;
}

/* Gives the bytes of a section, or none where it isn't there or is compressed. */
struct bytes section_of(const struct binary *binary, const char *name)
{
    unsigned count;
    const Elf64_Shdr *sections = sections_of(binary, &count);
    unsigned names = sections ? header_of(binary)->e_shstrndx : 0;
    for (unsigned number = 0; sections && names < count && number < count; number++) {
        const Elf64_Shdr *section = &sections[number];
        const char *own = part(binary, sections[names].sh_offset + section->sh_name, strlen(name) + 1);
        if (!own || memcmp(own, name, strlen(name) + 1) != 0)
            continue;
        const void *start = part(binary, section->sh_offset, section->sh_size);
        if (start && section->sh_type != SHT_NOBITS && !(section->sh_flags & SHF_COMPRESSED))
            return (struct bytes){start, (const unsigned char *)start + section->sh_size};
    }
    return (struct bytes){NULL, NULL};
}

static bool is_wanted(const Elf64_Sym *symbol)
{
    int type = ELF64_ST_TYPE(symbol->st_info);
    return symbol->st_shndx != SHN_UNDEF && symbol->st_size > 0 &&
           (type == STT_FUNC || type == STT_OBJECT || type == STT_GNU_IFUNC);
}

static void add_table(struct binary *binary, const Elf64_Shdr *table, const Elf64_Shdr *strings)
{
    const Elf64_Sym *all = table_part(binary, table->sh_offset, table->sh_size);
    const char *text = part(binary, strings->sh_offset, strings->sh_size);
    if (!all || !text || strings->sh_size == 0 || text[strings->sh_size - 1] != 0)
        return;
    for (uint64_t number = 0; number < table->sh_size / sizeof *all; number++) {
        if (!is_wanted(&all[number]) || all[number].st_name >= strings->sh_size)
            continue;
        binary->symbols =
            grown(binary->symbols, binary->symbol_count, &binary->symbol_room, sizeof *binary->symbols);
        binary->symbols[binary->symbol_count++] =
            (struct symbol){all[number].st_value, all[number].st_size, text + all[number].st_name};
    }
}

static int by_address(const void *left, const void *right)
{
    const struct symbol *a = left, *b = right;
    if (a->start != b->start)
        return a->start < b->start ? -1 : 1;
    return strcmp(b->name, a->name);
}

static void read_symbols(struct binary *binary)
{
    unsigned count;
    const Elf64_Shdr *sections = sections_of(binary, &count);
    for (unsigned number = 0; sections && number < count; number++) {
        uint32_t type = sections[number].sh_type;
        if ((type == SHT_SYMTAB || type == SHT_DYNSYM) && sections[number].sh_link < count)
            add_table(binary, &sections[number], &sections[sections[number].sh_link]);
    }
    if (binary->symbol_count)
        qsort(binary->symbols, binary->symbol_count, sizeof *binary->symbols, by_address);
}

/* Gives the name that a library has for those that are linked with it, or NULL. */
static const char *shared_name(const struct binary *binary)
{
    struct bytes entries = section_of(binary, ".dynamic"), names = section_of(binary, ".dynstr");
    const Elf64_Dyn *entry = (const Elf64_Dyn *)entries.at;
    if ((uintptr_t)entries.at % sizeof(uint64_t) != 0)
        return NULL;
    for (; entry && (const unsigned char *)(entry + 1) <= entries.end && entry->d_tag != DT_NULL; entry++)
        if (entry->d_tag == DT_SONAME)
            return text_in(names, entry->d_un.d_val);
    return NULL;
}

/* Each file is read once. It stays mapped. */
struct binary *binary_of(const char *path)
{
    static size_t room;
    for (size_t number = 0; number < binary_count; number++)
        if (strcmp(binaries[number]->path, path) == 0)
            return binaries[number];
    binaries = grown(binaries, binary_count, &room, sizeof(struct binary *));
    struct binary *binary = must(calloc(1, sizeof *binary));
    binary->path = must(strdup(path));
    map_file(binary);
    read_symbols(binary);
    const char *name = shared_name(binary);
    binary->name = must(strdup(base_of(name && name[0] ? name : path)));
    binaries[binary_count++] = binary;
    return binary;
}

/* Gives the symbol in which an address lies, and where in it. */
const char *symbol_at(const struct binary *binary, uint64_t address, uint64_t *offset)
{
    size_t low = 0, high = binary->symbol_count;
    while (low < high) {
        size_t middle = low + (high - low) / 2;
        if (binary->symbols[middle].start <= address)
            low = middle + 1;
        else
            high = middle;
    }
    /* A symbol that begins later may end before the address, inside one that began before it. */
    for (size_t back = 0; back < 16 && low > back; back++) {
        const struct symbol *symbol = &binary->symbols[low - 1 - back];
        *offset = address - symbol->start;
        if (*offset < symbol->size)
            return symbol->name;
    }
    return NULL;
}
