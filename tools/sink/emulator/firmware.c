/* A firmware's ELF, put into the flash. */
#include <elf.h>
#include <stdio.h>
#include <string.h>

#include "board.h"
#include "chip.h"
#include "code.h"
#include "core.h"
#include "model.h"
#include "serial.h"
#include "told.h"

enum { ROOM = 4 << 20 };

static uint8_t file[ROOM];
static size_t size;

/* What stands in the file, where all of it is there. */
static const void *part(uint32_t at, uint32_t bytes) {
    return at <= size && bytes <= size - at ? file + at : NULL;
}

static const Elf32_Ehdr *read_head(const char *elf) {
    FILE *from = fopen(elf, "rb");
    size = from != NULL ? fread(file, 1, sizeof file, from) : 0;
    if (from != NULL) {
        fclose(from);
    }
    const Elf32_Ehdr *head = part(0, sizeof *head);
    bool is_good = head != NULL && memcmp(head->e_ident, ELFMAG, SELFMAG) == 0 && head->e_machine == EM_ARM;
    return is_good ? head : NULL;
}

/* Puts one loadable part into the flash; false where it doesn't fit. */
static bool put(const Elf32_Phdr *of) {
    uint32_t at = of->p_paddr - FLASH_AT;
    const void *bytes = part(of->p_offset, of->p_filesz);
    if (of->p_type != PT_LOAD || of->p_filesz == 0) {
        return true;
    }
    if (bytes == NULL || at >= FLASH_BYTES || of->p_filesz > FLASH_BYTES - at) {
        return false;
    }
    memcpy(chip.flash + at, bytes, of->p_filesz);
    chip.program_at = of->p_paddr < chip.program_at ? of->p_paddr : chip.program_at;
    return true;
}

static const Elf32_Sym *symbol_of(const Elf32_Shdr *sections, const Elf32_Shdr *table, const char *name) {
    const Elf32_Sym *symbols = part(table->sh_offset, table->sh_size);
    const Elf32_Shdr *strings = &sections[table->sh_link];
    const char *names = part(strings->sh_offset, strings->sh_size);
    for (uint32_t at = 0; symbols != NULL && names != NULL && at < table->sh_size / sizeof *symbols; at++) {
        bool is_inside = symbols[at].st_name < strings->sh_size;
        if (is_inside && strcmp(names + symbols[at].st_name, name) == 0) {
            return &symbols[at];
        }
    }
    return NULL;
}

uint32_t model_symbol(const char *name, uint32_t *bytes) {
    const Elf32_Ehdr *head = part(0, sizeof *head);
    const Elf32_Shdr *sections = head == NULL ? NULL : part(head->e_shoff, head->e_shnum * (uint32_t)sizeof *sections);
    const Elf32_Sym *found = NULL;
    for (int each = 0; sections != NULL && each < head->e_shnum && found == NULL; each++) {
        bool is_table = sections[each].sh_type == SHT_SYMTAB && sections[each].sh_link < head->e_shnum;
        found = is_table ? symbol_of(sections, &sections[each], name) : NULL;
    }
    if (bytes != NULL) {
        *bytes = found != NULL ? found->st_size : 0;
    }
    return found != NULL ? found->st_value : 0;
}

/* All but the flash is as if power had never been on; all contacts are closed. */
static void begin(void) {
    memset(&chip.at, 0xff, sizeof chip.at);
    chip.now = chip.resets = chip.happened = 0;
    chip.is_stopped = false;
    chip.bss_end = model_symbol("bss_end", NULL);
    core.count = 0;
    core.least_sp = UINT32_MAX;
    told_clear();
    serial_clear();
    part_clear();
    model_turn_inputs(0);
    told_clear();
}

bool model_load(const char *elf) {
    const Elf32_Ehdr *head = read_head(elf);
    const Elf32_Phdr *parts = head == NULL ? NULL : part(head->e_phoff, head->e_phnum * (uint32_t)sizeof *parts);
    bool fits = parts != NULL && board_set(elf);
    memset(chip.flash, 0xff, sizeof chip.flash);
    chip.program_at = FLASH_AT + FLASH_BYTES;
    for (int each = 0; fits && each < head->e_phnum; each++) {
        fits = put(&parts[each]);
    }
    fits = fits && chip.program_at < FLASH_AT + FLASH_BYTES;
    begin();
    code_clear();
    return fits;
}
