/* The calls that stand in the code of a file, and what they call. */
#include <string.h>

#include "elf-parts.h"

/* The longest call, jump or step to another file that is looked at. */
#define STEP_BYTES 16

/* Gives the bytes that stand at an address of the file, or NULL where there are none. */
static const unsigned char *code_at(const struct binary *binary, uint64_t address, uint64_t length)
{
    const Elf64_Ehdr *header = header_of(binary);
    const Elf64_Phdr *segments = NULL;
    if (header)
        segments = table_part(binary, header->e_phoff, (uint64_t)header->e_phnum * sizeof *segments);
    for (unsigned number = 0; segments && number < header->e_phnum; number++) {
        const Elf64_Phdr *segment = &segments[number];
        if (segment->p_type == PT_LOAD && address >= segment->p_vaddr &&
            address - segment->p_vaddr + length <= segment->p_filesz)
            return part(binary, segment->p_offset + (address - segment->p_vaddr), length);
    }
    return NULL;
}

/* Answers whether a section has steps to other files. */
static bool has_steps(const struct binary *binary, const Elf64_Shdr *sections, const Elf64_Shdr *section)
{
    const Elf64_Shdr *names = &sections[header_of(binary)->e_shstrndx];
    const char *name = part(binary, names->sh_offset + section->sh_name, 4);
    return name && memcmp(name, ".plt", 4) == 0;
}

/* Gives the section of code in which an address is, or NULL. */
static const Elf64_Shdr *code_section(const struct binary *binary, uint64_t address, bool *is_step)
{
    unsigned count;
    const Elf64_Shdr *sections = sections_of(binary, &count);
    unsigned names = sections ? header_of(binary)->e_shstrndx : 0;
    for (unsigned number = 0; sections && names < count && number < count; number++) {
        const Elf64_Shdr *section = &sections[number];
        if (!(section->sh_flags & SHF_EXECINSTR) || address < section->sh_addr ||
            address - section->sh_addr >= section->sh_size)
            continue;
        *is_step = has_steps(binary, sections, section);
        return section;
    }
    return NULL;
}

static uint64_t target_of(uint64_t end, const unsigned char *distance)
{
    int32_t bytes;
    memcpy(&bytes, distance, sizeof bytes);
    return end + (uint64_t)(int64_t)bytes;
}

/* Gives the function that the call before a return address names, or 0 where it isn't a call of a
   function that stands in the same file. */
uint64_t called_before(const struct binary *binary, uint64_t address)
{
#ifdef __x86_64__
    bool is_step;
    const unsigned char *call = address >= 5 ? code_at(binary, address - 5, 5) : NULL;
    if (!call || call[0] != 0xe8)
        return 0;
    uint64_t target = target_of(address, call + 1);
    return code_section(binary, target, &is_step) && !is_step ? target : 0;
#else
    (void)binary;
    (void)address;
    return 0;
#endif
}

#ifdef __x86_64__
/* Gives the place in memory through which a step at an address goes to another file, or 0. */
static uint64_t slot_of_step(const struct binary *binary, uint64_t address)
{
    const unsigned char *step = code_at(binary, address, STEP_BYTES);
    for (unsigned at = 0; step && at + 6 <= STEP_BYTES; at++)
        if (step[at] == 0xff && step[at + 1] == 0x25)
            return target_of(address + at + 6, step + at + 2);
    return 0;
}

/* Tells of the call or jump that stands at an address, if one does, by what it names. */
static void see_call(struct binary *binary, uint64_t address, const unsigned char *code, uint64_t left,
                     bool (*is_wanted)(const struct binary *, uint64_t),
                     void (*see)(struct binary *, uint64_t, bool))
{
    bool is_direct = code[0] != 0xff, is_step;
    bool is_jump = is_direct ? code[0] == 0xe9 : code[1] == 0x25;
    uint64_t end = address + (is_direct ? 5 : 6);
    if (!is_direct && (left < 6 || (code[1] != 0x15 && code[1] != 0x25)))
        return;
    uint64_t target = target_of(end, code + (is_direct ? 1 : 2));
    bool is_met = is_wanted(binary, target);
    if (!is_met && is_direct && code_section(binary, target, &is_step) && is_step)
        is_met = is_wanted(binary, slot_of_step(binary, target));
    if (is_met)
        see(binary, is_jump ? address : end - 1, is_jump);
}
#endif

/* Goes over the calls and jumps in the code of a file that name a wanted function: one of the file by its
   address, one of another file by the place in memory that has its address. A row of bytes that looks like one
   and isn't has one chance in a thousand million. */
void each_call(struct binary *binary, bool (*is_wanted)(const struct binary *, uint64_t),
               void (*see)(struct binary *, uint64_t, bool))
{
#ifdef __x86_64__
    unsigned count;
    const Elf64_Shdr *sections = sections_of(binary, &count);
    unsigned names = sections ? header_of(binary)->e_shstrndx : 0;
    for (unsigned number = 0; sections && names < count && number < count; number++) {
        const Elf64_Shdr *section = &sections[number];
        const unsigned char *code = part(binary, section->sh_offset, section->sh_size);
        if (!(section->sh_flags & SHF_EXECINSTR) || !code || has_steps(binary, sections, section))
            continue;
        for (uint64_t at = 0; at + 5 <= section->sh_size; at++)
            if (code[at] == 0xe8 || code[at] == 0xe9 || code[at] == 0xff)
                see_call(binary, section->sh_addr + at, code + at, section->sh_size - at, is_wanted, see);
    }
#else
    (void)binary;
    (void)is_wanted;
    (void)see;
#endif
}

/* Goes over the functions of other files that a file names, with the places in memory that have their
   addresses. */
void each_import(struct binary *binary, void (*see)(struct binary *, const char *, uint64_t))
{
    unsigned count;
    const Elf64_Shdr *sections = sections_of(binary, &count);
    for (unsigned number = 0; sections && number < count; number++) {
        const Elf64_Shdr *section = &sections[number];
        if (section->sh_type != SHT_RELA || section->sh_link >= count)
            continue;
        const Elf64_Shdr *table = &sections[section->sh_link];
        const Elf64_Rela *all = table_part(binary, section->sh_offset, section->sh_size);
        const Elf64_Sym *symbols = table_part(binary, table->sh_offset, table->sh_size);
        if (!all || !symbols || table->sh_type != SHT_DYNSYM || table->sh_link >= count)
            continue;
        const Elf64_Shdr *names = &sections[table->sh_link];
        const unsigned char *text = part(binary, names->sh_offset, names->sh_size);
        for (uint64_t at = 0; text && at < section->sh_size / sizeof *all; at++) {
            uint64_t symbol = ELF64_R_SYM(all[at].r_info);
            if (symbol == 0 || symbol >= table->sh_size / sizeof *symbols)
                continue;
            const char *name = text_in((struct bytes){text, text + names->sh_size}, symbols[symbol].st_name);
            if (name)
                see(binary, name, all[at].r_offset);
        }
    }
}

/* Goes over the symbols of functions and variables of a file. */
void each_symbol(struct binary *binary, void (*see)(struct binary *, const char *, uint64_t))
{
    for (size_t number = 0; number < binary->symbol_count; number++)
        see(binary, binary->symbols[number].name, binary->symbols[number].start);
}
