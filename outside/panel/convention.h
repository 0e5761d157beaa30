/*
 * The calls whose result C returns in memory, on a machine other than x86-64: their modules are lowered for x86-64,
 * where the address of that memory is the first argument, so it is passed as such. Used by outside/valgrind alone.
 */
#include "desk.h"

void read_at(struct desk_found *, const uint8_t *, size_t, uint32_t *, size_t, desk_entry *, size_t)
    __asm__("desk_read");
void read_tracks_at(struct desk_found_tracks *, const uint8_t *, size_t, uint32_t *, size_t, desk_entry *, size_t,
                    uint32_t *, size_t) __asm__("desk_read_tracks");
void work_tracks_at(struct desk_worked_tracks *, const uint8_t *, size_t, uint8_t *, size_t)
    __asm__("desk_work_tracks");
void work_at(struct desk_worked *, const uint8_t *, size_t, uint8_t *, size_t) __asm__("desk_work");
void export_at(struct desk_exported *, const uint8_t *, size_t, uint8_t *, size_t) __asm__("desk_export");
void import_at(struct desk_imported *, const uint8_t *, size_t, uint8_t *, size_t) __asm__("desk_import");

static inline struct desk_found read_by_value(const uint8_t *sheet, size_t n, uint32_t *kinds, size_t k,
                                              desk_entry *events, size_t m)
{
    struct desk_found found;

    read_at(&found, sheet, n, kinds, k, events, m);
    return found;
}

static inline struct desk_worked work_by_value(const uint8_t *sheet, size_t n, uint8_t *out, size_t room)
{
    struct desk_worked worked;

    work_at(&worked, sheet, n, out, room);
    return worked;
}

static inline struct desk_found_tracks read_tracks_by_value(const uint8_t *sheet, size_t n, uint32_t *table, size_t k,
                                                            desk_entry *events, size_t m, uint32_t *tracks, size_t t)
{
    struct desk_found_tracks found;

    read_tracks_at(&found, sheet, n, table, k, events, m, tracks, t);
    return found;
}

static inline struct desk_worked_tracks work_tracks_by_value(const uint8_t *sheet, size_t n, uint8_t *out, size_t room)
{
    struct desk_worked_tracks worked;

    work_tracks_at(&worked, sheet, n, out, room);
    return worked;
}

static inline struct desk_exported export_by_value(const uint8_t *sheet, size_t n, uint8_t *out, size_t room)
{
    struct desk_exported exported;

    export_at(&exported, sheet, n, out, room);
    return exported;
}

static inline struct desk_imported import_by_value(const uint8_t *text, size_t n, uint8_t *out, size_t room)
{
    struct desk_imported imported;

    import_at(&imported, text, n, out, room);
    return imported;
}

#define desk_read read_by_value
#define desk_work work_by_value
#define desk_export export_by_value
#define desk_import import_by_value
#define desk_read_tracks read_tracks_by_value
#define desk_work_tracks work_tracks_by_value
