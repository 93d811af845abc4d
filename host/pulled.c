/* A card pulled while esdi_lay writes on it, as the library was compiled: its pages are shut but for the last two that
 * were written on, so that the next stops the laying, and at each stop the card is read. It must be refused, or be the
 * finished pack. The last page holds the distance alone, which goes last, and then it alone is open; the one before it
 * holds the form, which goes first. */
#include <signal.h>
#include <stdio.h>
#include <string.h>
#include <sys/mman.h>

#include "esdi.h"

enum { PAGE = 4096, PAGES = 4, FORM = PAGES - 2, DISTANCE = PAGES - 1, LENGTH = DISTANCE * PAGE + 4, MEDIUM = LENGTH - 44 };

static uint8_t *card;
static uint8_t finished[LENGTH];
static volatile int stops, wrong, first, last;

static void open_page(int page) { mprotect(card + page * PAGE, PAGE, PROT_READ | PROT_WRITE); }

static void shut(void) { mprotect(card, PAGES * PAGE, PROT_READ); }

static void stop(int number, siginfo_t *what, void *context) {
    (void)context;
    const ptrdiff_t place = (uint8_t *)what->si_addr - card;
    if (place < 0 || place >= LENGTH) {
        signal(number, SIG_DFL);
        return;
    }
    const int page = (int)(place / PAGE);
    shut();
    if (stops == 0)
        first = page;
    else {
        if (page != DISTANCE)
            open_page(last);
        wrong += ESDI_ANSWER(esdi_packs(card, LENGTH)) == ESDI_TAKEN && memcmp(card, finished, LENGTH) != 0;
    }
    last = page;
    open_page(last);
    stops++;
}

/* A drive in that slot whose medium is as long, on so many cylinders. */
static struct esdi_profile drive(uint8_t slot, uint16_t cylinders) {
    return (struct esdi_profile){
        .slot = slot,
        .general = ESDI_GENERAL_DRIVE_HARD_SECTORED | ESDI_GENERAL_FIXED | ESDI_GENERAL_RATE_TO_10_MHZ,
        .shape = {.cylinders = cylinders, .heads = 1, .track = (uint16_t)(MEDIUM / cylinders), .sector = 512},
    };
}

/* A drawing on the older pack, if there is one, and the new pack over it. */
static void lay(const char *what, const struct esdi_profile *older) {
    const struct esdi_profile profile = drive(1, 1);
    mprotect(card, PAGES * PAGE, PROT_READ | PROT_WRITE);
    memset(card, 0, LENGTH);
    if (older) {
        esdi_lay(card, LENGTH, older);
        memset(card, 0xAA, MEDIUM);
    }
    shut();
    stops = 0;
    const int refused = esdi_lay(card, LENGTH, &profile) != ESDI_TAKEN;
    if (refused || first != FORM || last != DISTANCE || memcmp(card, finished, LENGTH) != 0) {
        printf("pulled: %s: the form goes first and the distance last, not pages %d and %d\n", what, first, last);
        wrong++;
    }
}

int main(void) {
    const struct esdi_profile profile = drive(1, 1), same = drive(3, 1), other = drive(3, 2);
    const struct sigaction action = {.sa_sigaction = stop, .sa_flags = SA_SIGINFO};
    card = mmap(NULL, PAGES * PAGE, PROT_READ | PROT_WRITE, MAP_PRIVATE | MAP_ANONYMOUS, -1, 0);
    if (card == MAP_FAILED || sigaction(SIGSEGV, &action, NULL) != 0 || esdi_lay(finished, LENGTH, &profile) != ESDI_TAKEN)
        return 2;
    int all = 0;
    lay("a zeroed card", NULL);
    all += stops;
    lay("an older pack of the same shape", &same);
    all += stops;
    lay("an older pack of another shape", &other);
    all += stops;
    printf("pulled: %d stops, %d wrong\n", all, wrong);
    return wrong != 0;
}
