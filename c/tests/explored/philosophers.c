/* philosophers COUNT [right]: each fork is a message in a queue of its own, and a philosopher takes
 * the one on the left, and then the one on the right. All can hold one fork, by one preemption:
 * each other comes to a fork that is taken. Right is that the last one takes the right one first.
 */
#include "short.h"

static mqd_t forks[8];
static int seats, is_right;

static void *eat(void *of)
{
    const int left = (int)(long)of, right = (left + 1) % seats;
    const int first = is_right && right < left ? right : left, second = left + right - first;
    get(forks[first]);
    get(forks[second]);
    put(forks[second], 'f');
    put(forks[first], 'f');
    return 0;
}

int main(int count, char **words)
{
    pthread_t them[8];
    seats = number(count, words, 1, 5);
    is_right = count > 2;
    for (int i = 0; i < seats; ++i) {
        forks[i] = fresh_one("/fork", i, 1);
        put(forks[i], 'f');
    }
    for (int i = 0; i < seats; ++i)
        them[i] = go(eat, i);
    join(them, seats);
    puts("all have eaten");
    return 0;
}
