/* first.c: prints the canonical text of a master file, or why it is refused. */
#include <stdio.h>
#include <zonenorm.h>

int main(void) {
    zonenorm_input given = ZONENORM_INPUT_INIT;
    zonenorm_octets text;
    zonenorm_answer answer;
    given.kind = ZONENORM_ALL_TYPES;
    given.origin = zonenorm_string("example.");
    given.octets = zonenorm_string("$TTL 1h\n@ SOA ns1 hostmaster 1 2h 30m 2w 1h\n"
                                   "@ NS NS1\n@ CAA 0 issue ca.example\nns1 A 192.0.2.1\n");
    zonenorm_normalise(&given, &text, &answer);
    if (answer.status == ZONENORM_OK || answer.status == ZONENORM_REFUSED)
        fwrite(text.at, 1, text.len, stdout);
    else
        printf("status %u\n", answer.status);
    zonenorm_free(&text);
    return answer.status != ZONENORM_OK;
}
