/* Has libass wrap each line of standard input in frames of many widths, and writes where it wraps, as it logs it:
 *
 *     wraps FONT < LINES
 *
 * A line of output is the number of a line, from 1, the scalars of it before the wrap, and `forced` where the line
 * must end there. libass reads `\N` in a line as a line feed.
 */
#include <ass/ass.h>
#include <stdarg.h>
#include <stdio.h>
#include <stdlib.h>
#include <string.h>

enum { MOST = 4000, WIDEST = 800, HEIGHT = 100 };

/* No character is as narrow as the frames' widths differ. */
static const char head[] =
    "[Script Info]\nScriptType: v4.00+\nWrapStyle: 1\nPlayResX: %d\nPlayResY: 100\n\n[V4+ Styles]\n"
                           "Format: Name, Fontname, Fontsize, MarginL, MarginR, MarginV, Alignment, Encoding\n"
                           "Style: Default,DejaVu Sans,10,0,0,0,7,1\n\n[Events]\n"
                           "Format: Layer, Start, End, Style, Text\nDialogue: 0,0:00:00.00,0:00:10.00,Default,%s\n";

static unsigned line_number;

static void log_wrap(int level, const char *form, va_list words, void *data)
{
    int is_forced = strcmp(form, "forced line break at %d") == 0;
    (void)level, (void)data;
    if (is_forced || strcmp(form, "line break at %d") == 0)
        printf("%u %d%s\n", line_number, va_arg(words, int) + 1, is_forced ? " forced" : "");
}

static int wrap(ASS_Library *library, ASS_Renderer *renderer, const char *line, int width)
{
    char script[sizeof head + MOST + 8];
    int size = snprintf(script, sizeof script, head, width, line);
    ASS_Track *track = ass_read_memory(library, script, (size_t)size, NULL);
    if (track == NULL || ass_track_set_feature(track, ASS_FEATURE_WRAP_UNICODE, 1) != 0)
        return 0;
    ass_set_frame_size(renderer, width, HEIGHT);
    ass_render_frame(renderer, track, 1000, NULL);
    ass_free_track(track);
    return 1;
}

int main(int count, char **word)
{
    char line[MOST];
    ASS_Library *library = ass_library_init();
    ASS_Renderer *renderer = library == NULL ? NULL : ass_renderer_init(library);
    if (count != 2 || renderer == NULL)
        return 2;
    ass_set_message_cb(library, log_wrap, NULL);
    ass_set_fonts(renderer, word[1], NULL, ASS_FONTPROVIDER_NONE, NULL, 0);
    while (fgets(line, sizeof line, stdin) != NULL) {
        line_number++;
        line[strcspn(line, "\n")] = '\0';
        for (int width = 2; width <= WIDEST; width += 2)
            if (!wrap(library, renderer, line, width))
                return 1;
    }
    ass_renderer_done(renderer);
    ass_library_done(library);
    return 0;
}
