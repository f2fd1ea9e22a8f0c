/* Each call of libotp.a and of libsplash.a on one struct that holds all that it takes, for src/bin/timings/. The face takes the state by value, and a
   call that can change it gives it back by value, so each of these copies it in and, where it comes back, out: what any caller in C
   does. The last two do nothing but that. Before them stands what a screen does with the state. A chunk begins at the note, and leaves
   it as it was, so that the next does the same. A job is made of the rows and the wanted ones, and read by its entries as a printout does.
   A repair pass goes over the first rows of the list. */
#include "splash.h"

enum { ROWS = 4096, LISTED = 0xf40, JOB = 7 + 6 * 512, KEY = 16, SINGLE = 100 };

/* The same as `Work` in src/bin/timings/work.rs. Aligned as a variable of its own would be: a state that is not is copied twice. */
typedef struct {
    _Alignas(8) uint32_t rows[ROWS];
    uint32_t wanted[ROWS];
    uint32_t list[LISTED], report[LISTED];
    uint8_t job[JOB];
    uint8_t out[OTP_JOB_BYTES];
    uint8_t key[KEY];
    uint8_t area[OTP_AREA_BYTES];
    otp_note note, noted;
    uint32_t caller, row, count, value, domain, page, level, limit;
    uint64_t listed;
    otp_state state;
    otp_answer answer;
    otp_card card, asked;
} work;

static void keep(work *w, otp_outcome outcome)
{
    w->answer = outcome.answer;
    w->state = outcome.state;
}

void work_reset(work *w) { keep(w, otp_reset(w->rows, ROWS, w->state)); }
void work_read_raw(work *w) { w->answer = otp_read_raw(w->rows, ROWS, w->state, w->caller, w->row); }
void work_read_ecc(work *w) { w->answer = otp_read_ecc(w->rows, ROWS, w->state, w->caller, w->row); }
void work_read_vote(work *w) { w->answer = otp_read_vote(w->rows, ROWS, w->state, w->caller, w->row, w->count); }
void work_write_raw(work *w) { keep(w, otp_write_raw(w->rows, ROWS, w->state, w->caller, w->row, w->value)); }
void work_write_ecc(work *w) { keep(w, otp_write_ecc(w->rows, ROWS, w->state, w->caller, w->row, w->value)); }
void work_advance(work *w) { keep(w, otp_advance(w->state, w->caller, w->domain, w->page, w->level)); }
void work_show(work *w) { w->answer = otp_show(w->state, w->caller, w->domain, w->page); }
void work_enter_key(work *w) { keep(w, otp_enter_key(w->state, w->caller, w->key, KEY)); }
void work_run_job(work *w) { keep(w, otp_run_job(w->rows, ROWS, w->state, w->job, JOB)); }
void work_rehearse(work *w) { keep(w, otp_rehearse(w->rows, ROWS, w->state, w->job, JOB, w->limit)); }
void work_end_job(work *w) { keep(w, otp_end_job(w->rows, ROWS, w->state, w->area, sizeof w->area, w->note)); }

static otp_taken take(work *w, otp_note note, uint64_t count)
{
    return otp_take_chunk(w->area, sizeof w->area, note, w->job + note.counted, count);
}

static void note(work *w, otp_taken taken)
{
    w->answer = taken.answer;
    w->noted = taken.note;
}

/* What is left of the job in one chunk; so many bytes of it one by one; all of it and its end. */
void work_take_chunk(work *w) { note(w, take(w, w->note, JOB - w->note.counted)); }

void work_take_bytes(work *w)
{
    otp_taken taken = {.note = w->note};
    for (int i = 0; i < SINGLE; i++)
        taken = take(w, taken.note, 1);
    note(w, taken);
}

void work_send_job(work *w)
{
    work_take_chunk(w);
    keep(w, otp_end_job(w->rows, ROWS, w->state, w->area, sizeof w->area, w->noted));
}

void work_make_job(work *w) { w->answer = otp_make_job(w->rows, ROWS, w->wanted, ROWS, w->out, sizeof w->out); }

/* Every entry of the job: how many there are, and the sum of their values. */
void work_read_job(work *w)
{
    otp_answer read = {0};
    for (otp_entry e = otp_next_entry(w->job, JOB, 7); e.end == 0; e = otp_next_entry(w->job, JOB, e.at)) {
        if (e.number != 0) {
            w->answer = (otp_answer){.number = e.number};
            return;
        }
        read.place++;
        read.value += e.value;
    }
    w->answer = read;
}

void work_repair(work *w) { keep(w, otp_repair(w->rows, ROWS, w->state, w->list, w->listed, w->report, LISTED)); }

void work_read_card(work *w)
{
    w->card = otp_read_card(w->rows, ROWS, w->state);
    w->answer = (otp_answer){.number = w->card.number};
}

void work_write_card(work *w)
{
    otp_card c = w->asked;
    w->answer = otp_write_card(w->out, sizeof w->out, c.version, c.width, c.height, c.line);
}

void work_bits_burnt(work *w) { w->answer = (otp_answer){.value = w->state.tallies[w->page]}; }

__attribute__((noinline)) otp_answer read_shape(otp_state state) { return (otp_answer){.value = state.secure[9]}; }
__attribute__((noinline)) otp_outcome write_shape(otp_state state) { return (otp_outcome){.state = state}; }

void work_read_shape(work *w) { w->answer = read_shape(w->state); }
void work_write_shape(work *w) { keep(w, write_shape(w->state)); }
