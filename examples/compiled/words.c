// Words of texts, sums of numbers, and counters. No library is needed: what allocates stands here too.
//
// A text is the address and the number of its bytes, in UTF-8. Where a function returns a struct of two members, the
// compiler has it write them to room on the stack, whose address is its first parameter.

typedef unsigned char byte;
typedef unsigned number;

#define EXPORT(name) __attribute__((export_name(#name))) extern

// What allocates. Blocks have 16, 32, 64 bytes and so on up to 2 GiB, and those of one size that are free are a list.

struct block { struct block *next; };

extern byte __heap_base;  // of the linker: memory is free from here on
static byte *top = &__heap_base;
static struct block *unused[28];
static number used;

// Which size is the least that holds so many bytes.
static number place_of(number size) {
  number place = size <= 16 ? 0 : 28 - __builtin_clz(size - 1);
  if (place == 28) __builtin_trap();
  return place;
}

// A block that was never used, behind all others.
static void *new_block(number size) {
  top = (byte *)(((number)top + 15) & -16);
  number room = __builtin_wasm_memory_size(0) * 65536 - (number)top;
  if (room < size && __builtin_wasm_memory_grow(0, (size - room + 65535) / 65536) == -1ul) __builtin_trap();
  top += size;
  return top - size;
}

// A block for so many bytes. Every block fits an alignment of 16.
EXPORT(malloc) void *malloc(number size, number alignment) {
  number place = place_of(size);
  struct block *block = unused[place];
  if (block) unused[place] = block->next;
  else block = new_block(16u << place);
  used++;
  return block;
}

// Takes back a block that was allocated for so many bytes.
EXPORT(free) void free(void *at, number size, number alignment) {
  struct block *block = at;
  number place = place_of(size);
  block->next = unused[place];
  unused[place] = block;
  used--;
}

static void copy(byte *to, const byte *from, number length) {
  for (number i = 0; i < length; i++) to[i] = from[i];
}

// A block for another number of bytes, with what the old one held.
EXPORT(realloc) void *realloc(void *at, number old, number size, number alignment) {
  if (place_of(old) == place_of(size)) return at;
  void *to = malloc(size, alignment);
  copy(to, at, old < size ? old : size);
  free(at, old, alignment);
  return to;
}

// Takes back so many numbers.
EXPORT(free_numbers) void free_numbers(number *at, number count, number alignment) {
  free(at, count * sizeof(number), alignment);
}

// How many blocks are in use.
EXPORT(blocks) number blocks(void) {
  return used;
}

// Words. What parts them is any character up to U+0020, the space.

struct text { const byte *at; number length; };
struct numbers { number *at; number count; };

// The next word of a text, which begins behind it from then on. Without one it is empty.
static struct text next_word(struct text *rest) {
  const byte *end = rest->at + rest->length;
  while (rest->at < end && *rest->at <= ' ') rest->at++;
  struct text word = {rest->at, 0};
  while (rest->at < end && *rest->at > ' ') rest->at++;
  word.length = rest->at - word.at;
  rest->length = end - rest->at;
  return word;
}

// How many characters a word has: of the bytes of each, all but the first are 10xxxxxx.
static number characters(struct text word) {
  number count = 0;
  for (number i = 0; i < word.length; i++) count += (word.at[i] & 0xC0) != 0x80;
  return count;
}

// How many words a text has.
EXPORT(count_words) number count_words(const byte *at, number length) {
  struct text rest = {at, length};
  number count = 0;
  while (next_word(&rest).length > 0) count++;
  return count;
}

// The word with the most characters, the first of several, in a block of its own.
EXPORT(longest) struct text longest(const byte *at, number length) {
  struct text rest = {at, length}, best = {at, 0}, word;
  while ((word = next_word(&rest)).length > 0) {
    if (characters(word) > characters(best)) best = word;
  }
  byte *to = malloc(best.length, 1);
  copy(to, best.at, best.length);
  return (struct text){to, best.length};
}

// The number of characters of each word, in a block of its own.
EXPORT(lengths) struct numbers lengths(const byte *at, number length) {
  struct text rest = {at, length};
  number count = count_words(at, length);
  number *to = malloc(count * sizeof(number), sizeof(number));
  for (number i = 0; i < count; i++) to[i] = characters(next_word(&rest));
  return (struct numbers){to, count};
}

// The sum of numbers.
EXPORT(sum) number sum(const number *at, number count) {
  number total = 0;
  for (number i = 0; i < count; i++) total += at[i];
  return total;
}

// Counters. A counter is a closure: the address of a block with its number, and its step.

struct counter { int *at; int step; };

__attribute__((import_module("__wbindgen_placeholder__"), import_name("log")))
extern void log_text(const char *at, number length);

// A counter that begins at a number.
EXPORT(counter) struct counter counter(int start, int step) {
  int *at = malloc(sizeof(int), sizeof(int));
  *at = start;
  return (struct counter){at, step};
}

// Counts on so many times, and gives the number. What was given back has no address.
EXPORT(count_on) int count_on(int *at, int step, int times) {
  if (!at) __builtin_trap();
  return *at += step * times;
}

// Takes a counter back, and tells it.
EXPORT(end_counter) void end_counter(int *at, int step) {
  static const char told[] = "a counter is free";
  if (!at) return;
  free(at, sizeof(int), sizeof(int));
  log_text(told, sizeof told - 1);
}
