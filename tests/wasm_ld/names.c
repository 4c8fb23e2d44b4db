/* Functions under names of several kinds. */
__attribute__((used)) int used(void) { return 1; }

__attribute__((export_name("pub"))) int own(void) { return 2; }

__attribute__((visibility("default"))) int shown(void) { return 3; }

__attribute__((visibility("default"), used)) int shown_and_used(void) { return 4; }

int memory(void) { return 5; }

int hidden(void) { return 6; }
