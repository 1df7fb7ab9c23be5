/* A picture of a season, as SVG: above, the span of the right readings in each stretch of time, and the wrong record
   that is farthest off there, as it was filed and as it is right; below, how many are wrong. */

#ifndef PICTURE_H
#define PICTURE_H

#include "bars.h"
#include <stdio.h>
#include <time.h>

/* Where the two parts of the picture stand. */
enum { LEFT = 70, RIGHT = 980, TOP = 74, FLOOR = 330, COUNTS = 360, BOTTOM = 430 };

/* The readings that the upper part shows. */
typedef struct {
  double low, high;
} scale;

/* Zero, and every right reading. */
static scale scale_of(const picture *all) {
  scale shown = {0, 0};
  for (size_t i = 0; i < all->length; i++)
    if (all->bars[i].records > 0) {
      shown.low = all->bars[i].low < shown.low ? all->bars[i].low : shown.low;
      shown.high = all->bars[i].high > shown.high ? all->bars[i].high : shown.high;
    }
  if (shown.low == shown.high)
    shown.high = 1;
  return shown;
}

/* How high a reading stands. One outside the scale stands at its edge. Halves keep the greatest readings in range. */
static double height_of(scale shown, double reading) {
  const double part = (reading / 2 - shown.low / 2) / (shown.high / 2 - shown.low / 2);
  return FLOOR - (part > 0 ? part < 1 ? part : 1 : 0) * (FLOOR - TOP);
}

/* 1, 2 or 5 times a power of ten, such that some five steps go into the span. */
static double step_of(double span) {
  double step = 1;
  while (step * 5 > span && step > 1e-300)
    step /= 10;
  while (step * 50 <= span && step < 1e300)
    step *= 10;
  return step * 25 <= span ? step * 5 : step * 10 <= span ? step * 2 : step;
}

/* Can the time that a bar begins at be a count of seconds since 1970, in UTC? */
static bool is_date(const picture *all, size_t at) {
  return all->timed && !all->local && (all->first + (int64_t)at) * all->width >= 100000000;
}

/* The time that a bar begins at. */
static void time_of(const picture *all, size_t at, char text[64]) {
  const int64_t seconds = (all->first + (int64_t)at) * all->width;
  const time_t moment = (time_t)seconds;
  struct tm *parts = is_date(all, at) || all->local ? gmtime(&moment) : NULL;
  if (parts != NULL && strftime(text, 64, all->width < 86400 ? "%Y-%m-%d %H:%M:%S" : "%Y-%m-%d", parts) > 0)
    return;
  if (all->timed)
    snprintf(text, 64, "%" PRId64, seconds);
  else
    snprintf(text, 64, "%s", all->bars[at].time);
}

/* Text in which a byte could be taken for markup. */
static void put_text(FILE *file, const char *text) {
  for (; *text != '\0'; text++)
    if (*text == '<' || *text == '>' || *text == '&' || *text == '"')
      fprintf(file, "&#%d;", *text);
    else
      putc(*text, file);
}

/* How wide a bar is, in words. */
static void width_text(const picture *all, char text[64]) {
  static const struct {
    int64_t width;
    const char *name;
  } names[] = {{604800, "week"}, {86400, "day"}, {3600, "hour"}, {60, "minute"}, {1, "second"}};
  const int64_t width = all->length > 0 ? all->width : 1;
  size_t i = 0;
  while (all->timed && width % names[i].width != 0)
    i++;
  const int64_t count = all->timed ? width / names[i].width : width;
  snprintf(text, 64, "%" PRId64 " %s%s", count, all->timed ? names[i].name : "record", count == 1 ? "" : "s");
}

static void draw_frame(FILE *file, const picture *all, scale shown, uint64_t records, uint64_t wrong) {
  char text[64];
  width_text(all, text);
  if (is_date(all, 0))
    strcat(text, ", times in UTC");
  fprintf(file,
          "<svg xmlns=\"http://www.w3.org/2000/svg\" viewBox=\"0 0 1000 480\" font-family=\"sans-serif\" "
          "font-size=\"13\">\n<rect width=\"1000\" height=\"480\" fill=\"#ffffff\"/>\n"
          "<text x=\"%d\" y=\"28\" font-size=\"20\">%" PRIu64 " of %" PRIu64 " records %s wrong</text>\n",
          LEFT, wrong, records, wrong == 1 ? "is" : "are");
  /* in a wide font a letter takes 9 of these units: no text reaches the next */
  fprintf(file,
          "<g fill=\"#444444\">\n<text x=\"%d\" y=\"28\" text-anchor=\"end\">each bar: %s</text>\n"
          "<rect x=\"%d\" y=\"42\" width=\"12\" height=\"12\" fill=\"#9db4d0\"/>"
          "<text x=\"88\" y=\"52\">right readings, lowest to highest</text>\n"
          "<circle cx=\"420\" cy=\"48\" r=\"4\" fill=\"#006d2c\"/>"
          "<text x=\"430\" y=\"52\">the wrong record farthest off: right</text>\n"
          "<circle cx=\"800\" cy=\"48\" r=\"4\" fill=\"none\" stroke=\"#cb181d\" stroke-width=\"2\"/>"
          "<text x=\"810\" y=\"52\">as filed</text>\n",
          RIGHT, text, LEFT);
  const double step = step_of(shown.high - shown.low);
  for (double k = -60; k <= 60; k++) {
    const double reading = k * step, y = height_of(shown, reading);
    if (reading >= shown.low && reading <= shown.high)
      fprintf(file,
              "<path d=\"M%d %.1fH%d\" stroke=\"#dddddd\"/><text x=\"%d\" y=\"%.1f\" text-anchor=\"end\">%.6g</text>\n",
              LEFT, y, RIGHT, LEFT - 8, y + 4, reading);
  }
}

/* The spans of right readings and the numbers of wrong records. */
static void draw_bars(FILE *file, const picture *all, scale shown, double wide) {
  uint64_t most = 1;
  for (size_t i = 0; i < all->length; i++)
    most = all->bars[i].wrong > most ? all->bars[i].wrong : most;
  fprintf(file,
          "<path d=\"M%d %dH%d\" stroke=\"#888888\"/><text x=\"%d\" y=\"%d\" text-anchor=\"end\">%" PRIu64
          "</text><text x=\"%d\" y=\"%d\" text-anchor=\"end\">0</text>"
          "<text x=\"%d\" y=\"%d\">wrong records in each bar</text>\n</g>\n",
          LEFT, BOTTOM, RIGHT, LEFT - 8, COUNTS + 4, most, LEFT - 8, BOTTOM + 4, LEFT, COUNTS - 8);
  for (size_t i = 0; i < all->length; i++) {
    const bar *one = &all->bars[i];
    const double x = LEFT + (double)i * wide, high = height_of(shown, one->high), low = height_of(shown, one->low);
    if (one->records > 0)
      fprintf(file, "<rect x=\"%.2f\" y=\"%.1f\" width=\"%.2f\" height=\"%.1f\" fill=\"#9db4d0\"/>\n", x, high - 1,
              wide * 0.9, low - high + 2);
    if (one->wrong > 0) {
      const double tall = (BOTTOM - COUNTS) * ((double)one->wrong / (double)most);
      fprintf(file, "<rect x=\"%.2f\" y=\"%.1f\" width=\"%.2f\" height=\"%.1f\" fill=\"#cb181d\"/>\n", x,
              BOTTOM - (tall < 1 ? 1 : tall), wide * 0.9 < 1.5 ? 1.5 : wide * 0.9, tall < 1 ? 1 : tall);
    }
  }
}

/* The wrong records that are farthest off. */
static void draw_wrong(FILE *file, const picture *all, scale shown, double wide) {
  for (size_t i = 0; i < all->length; i++) {
    const bar *one = &all->bars[i];
    const double x = LEFT + ((double)i + 0.45) * wide;
    const double right = height_of(shown, one->right), filed = height_of(shown, one->filed);
    char time[64];
    if (one->wrong == 0)
      continue;
    time_of(all, i, time);
    fprintf(file, "<g><title>");
    put_text(file, time);
    fprintf(file, ": %" PRIu64 " wrong of %" PRIu64 "; farthest off: right %.6g", one->wrong, one->records, one->right);
    if (one->filed != one->right)
      fprintf(file, ", filed %.6g", one->filed);
    fprintf(file, "</title><circle cx=\"%.1f\" cy=\"%.1f\" r=\"4\" fill=\"#006d2c\"/>", x, right);
    if (one->filed != one->right)
      fprintf(file,
              "<path d=\"M%.1f %.1fV%.1f\" stroke=\"#cb181d\"/>"
              "<circle cx=\"%.1f\" cy=\"%.1f\" r=\"4\" fill=\"none\" stroke=\"#cb181d\" stroke-width=\"2\"/>",
              x, right, filed, x, filed);
    fprintf(file, "</g>\n");
  }
}

/* Five times along the lower edge. */
static void draw_times(FILE *file, const picture *all, double wide) {
  for (size_t k = 0; k < 5 && all->length > 0; k++) {
    const size_t at = k * (all->length - 1) / 4;
    char time[64];
    if (k > 0 && at == (k - 1) * (all->length - 1) / 4)
      continue;
    time_of(all, at, time);
    fprintf(file, "<text x=\"%.1f\" y=\"%d\" fill=\"#444444\" text-anchor=\"%s\">", LEFT + (double)at * wide,
            BOTTOM + 24,
            k == 0   ? "start"
            : k == 4 ? "end"
                     : "middle");
    put_text(file, time);
    fprintf(file, "</text>\n");
  }
}

static void draw(FILE *file, const picture *all, uint64_t records, uint64_t wrong) {
  const scale shown = scale_of(all);
  const double wide = (double)(RIGHT - LEFT) / (double)(all->length > 0 ? all->length : 1);
  draw_frame(file, all, shown, records, wrong);
  draw_bars(file, all, shown, wide);
  draw_wrong(file, all, shown, wide);
  draw_times(file, all, wide);
  fprintf(file, "</svg>\n");
}

#endif
