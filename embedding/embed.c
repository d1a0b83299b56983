/* Runs a FORTRAN 77 program from a file by the library, and says how it ended
 * as f77run does:
 *
 *     tools/make-library lib
 *     cc -I include embedding/embed.c lib/libf77run.a -o embed
 *     ./embed examples/powers.f
 */
#include "f77run.h"

#include <stdio.h>
#include <stdlib.h>

/* The most turns that the program may take, and the most bytes to write. */
static const uint64_t TURNS = 1000000000;
static const size_t MOST = (size_t)1 << 30;

/* The bytes of a file, or NULL. */
static uint8_t *read_file(const char *name, size_t *size) {
  FILE *file = fopen(name, "rb");
  uint8_t *bytes = NULL;
  long length = 0;
  if (file == NULL)
    return NULL;
  if (fseek(file, 0, SEEK_END) == 0 && (length = ftell(file)) >= 0)
    bytes = malloc((size_t)length + 1); /* of an empty file too */
  if (bytes != NULL) {
    rewind(file);
    *size = fread(bytes, 1, (size_t)length, file);
  }
  fclose(file);
  return bytes;
}

/* Runs a source, with twice the room whenever its output was full. */
static uint8_t *run(const uint8_t *source, size_t size,
                    struct f77run_report *report) {
  size_t room = 4096;
  uint8_t *output = malloc(room);
  while (output != NULL) {
    f77run_run(source, size, TURNS, output, room, report);
    if (report->ending != F77RUN_FULL || room >= MOST)
      break;
    free(output);
    room *= 2;
    output = malloc(room);
  }
  return output;
}

/* Says how a run ended, and returns f77run's exit status. */
static int tell(const struct f77run_report *report) {
  const struct f77run_place *place = &report->place;
  switch (report->ending) {
  case F77RUN_ENDED:
    return 0;
  case F77RUN_STOPPED:
    fprintf(stderr, "STOP%s%.*s\n", report->message_size > 0 ? " " : "",
            (int)report->message_size, (const char *)report->message);
    return 0;
  case F77RUN_FAULT:
  case F77RUN_REFUSED:
    fprintf(stderr, "%s %c%u LINE %u\n",
            report->ending == F77RUN_FAULT ? "FAULT" : "REFUSED",
            (char)place->letter, (unsigned)place->number,
            (unsigned)place->line);
    return report->ending == F77RUN_FAULT ? 1 : 2;
  case F77RUN_MEMORY:
    fputs("NO MEMORY\n", stderr);
    return 4;
  default:
    fputs("WRITE REFUSED\n", stderr);
    return 5;
  }
}

int main(int count, char **words) {
  size_t size = 0;
  uint8_t *source = count == 2 ? read_file(words[1], &size) : NULL;
  static struct f77run_report report;
  uint8_t *output;
  int status;
  if (source == NULL) {
    fputs("usage: embed FILE, which can be read\n", stderr);
    return 5;
  }
  output = run(source, size, &report);
  free(source);
  if (output == NULL) {
    fputs("NO MEMORY\n", stderr);
    return 4;
  }
  fwrite(output, 1, report.written, stdout);
  free(output);
  status = tell(&report);
  return fflush(stdout) == 0 ? status : 5;
}
