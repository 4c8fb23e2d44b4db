/* A counter that tells the host each new value. */
void log_value(int value) __attribute__((import_module("host"), import_name("log_value")));

int step;
static int value;

int count(void) {
    value += step;
    log_value(value);
    return value;
}

void reset(void) { value = 0; }

int last(void) { return value; }
