#include <revroute.h>
#include <stdio.h>

static void tell(revroute *session, revroute_round round) {
    uint32_t nodes[4];
    size_t length;
    printf("turned %d cut %d\n", (int)round.turned, (int)round.cut_off);
    if (revroute_walk(session, 3, nodes, 4, &length) != REVROUTE_ANSWERED) puts("walk 3 cut");
    else printf("walk %d %d %d %d\n", (int)nodes[0], (int)nodes[1], (int)nodes[2], (int)nodes[3]);
}

int main(void) {
    revroute session = REVROUTE_NEW;
    revroute_link links[] = {{0, 1}, {1, 2}, {2, 3}};
    revroute_edit cut = {REVROUTE_CUT, 1, 0};
    revroute_round round;
    revroute_refusal why;
    if (revroute_open(&session, 4, 0, links, 3, &round, &why) == REVROUTE_ANSWERED) tell(&session, round);
    if (revroute_change(&session, &cut, 1, &round, &why) == REVROUTE_ANSWERED) tell(&session, round);
    revroute_close(&session);
}
