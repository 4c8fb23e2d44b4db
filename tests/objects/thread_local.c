/* Data of each thread, with values and without. */
_Thread_local int mine = 5;
static _Thread_local int scratch[4];

int count(int i) {
    scratch[i & 3] += mine++;
    return scratch[i & 3];
}
