/* large.c: inputs of 2 GiB, which no call may read beyond its limit: large */
#include <stdio.h>
#include <sys/mman.h>
#include <zonenorm.h>

static int wrong;

static void expect(const char *what, const zonenorm_answer *answer, uint32_t status, uint32_t fault) {
    if (answer->status == status && answer->fault == fault) return;
    printf("%s: status %u, fault %u\n", what, answer->status, answer->fault);
    wrong = 1;
}

int main(void) {
    size_t len = (size_t)1 << 31;
    const uint8_t *zeros = mmap(NULL, len, PROT_READ, MAP_PRIVATE | MAP_ANONYMOUS | MAP_NORESERVE, -1, 0);
    if (zeros == MAP_FAILED) { perror("mmap"); return 4; }
    for (uint32_t kind = 0; kind < 4; kind++) {
        zonenorm_input given = ZONENORM_INPUT_INIT;
        zonenorm_octets text, reason;
        zonenorm_answer answer;
        uint8_t room[64];
        given.kind = kind;
        given.origin = zonenorm_string(".");
        given.octets.at = zeros;
        given.octets.len = len;
        given.limit = kind == 1 ? 0 : UINT64_MAX;
        zonenorm_normalise(&given, &text, &answer); expect("normalise", &answer, 3, 45); zonenorm_free(&text);
        zonenorm_normalise_into(&given, room, sizeof room, &answer); expect("normalise_into", &answer, 3, 45);
        zonenorm_records(&given, &text, &answer); expect("records", &answer, 3, 45); zonenorm_free(&text);
        zonenorm_compare(&given, &given, &text, &answer); expect("compare", &answer, 3, 45); zonenorm_free(&text);
        zonenorm_diff(&given, &given, 0, &text, &reason, &answer); expect("diff", &answer, 3, 45);
        zonenorm_free(&text); zonenorm_free(&reason);
        zonenorm_verify(&given, &text, &answer); expect("verify", &answer, 3, 45); zonenorm_free(&text);
        zonenorm_digest(&given, 1, &text, &answer); expect("digest", &answer, 3, 45); zonenorm_free(&text);
        zonenorm_generic(&given, &text, &reason, &answer);
        expect("generic", &answer, kind == 2 ? 3 : 5, kind == 2 ? 45 : 0);
        zonenorm_free(&text);
        zonenorm_free(&reason);
        given.octets.len = (size_t)1 << 30; /* the most that is read: zeros are no master file and no transfer */
        if (kind < 2) {
            zonenorm_normalise(&given, &text, &answer);
            if (answer.status != ZONENORM_REFUSED || answer.fault == 45) expect("1 GiB", &answer, 3, 0);
            zonenorm_free(&text);
        }
    }
    puts(wrong ? "wrong" : "right");
    return wrong;
}
