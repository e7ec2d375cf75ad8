#include <cwr.h>
#include <stdio.h>

static uint8_t file[CWR_MOST_BYTES + 1], verdicts[CWR_MOST_RECORDS], findings[CWR_MOST_RECORDS * CWR_FINDING_BYTES];
static const uint8_t languages[] = "ENFRDEES", societies[] = "010035044052058", categories[] = "POPJAZSERUNC";

int main(void) {
    size_t length = fread(file, 1, sizeof file, stdin);
    uint64_t answer = cwr_check(file, length, languages, sizeof languages - 1, societies, sizeof societies - 1,
                                categories, sizeof categories - 1, verdicts, sizeof verdicts, findings, sizeof findings);
    if (cwr_refusal(answer) != 0)
        printf("refused by %u at record %u\n", cwr_refusal(answer), cwr_place(answer));
    for (uint32_t i = 0; cwr_refusal(answer) == 0 && i < cwr_place(answer); i++)
        if (verdicts[i] != CWR_ACCEPTED)
            printf("record %u: verdict %u, %u findings\n", i, verdicts[i], cwr_findings_count(cwr_findings_of(findings, i)));
}
