/* Data of each thread as it is taken in code that may lie anywhere. */
_Thread_local long long stamp = 1;
static _Thread_local short marks[3] = {1, 2, 3};
extern _Thread_local int count;

long long advance(int i) {
    stamp += marks[i] + count;
    return stamp;
}
