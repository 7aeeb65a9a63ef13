/* The threads of OpenMP, which wait for one another in ways that are not seen. It is right. */
#include <stdio.h>

int main(void)
{
    int sum = 0;
#pragma omp parallel for reduction(+ : sum) num_threads(3)
    for (int i = 0; i < 9; ++i)
        sum += i;
    printf("%d\n", sum);
    return sum != 36;
}
