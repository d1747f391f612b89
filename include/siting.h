/*
 * Siting: finds the place where one more wash post lowers the travel of a deck the most. The entry for C; docs/RULES.md has the rules.
 *
 * Link target/staticlib/libsiting.a, which `scripts/libraries siting` makes, on Linux on x86-64.
 */
#ifndef SITING_H
#define SITING_H

#include <stddef.h>
#include <stdint.h>

#ifdef __cplusplus
extern "C" {
#endif

/*
 * Reads a job, finds the place for one more post and writes the report.
 *
 * The job is lines, each ended by byte 10, with nothing behind the last:
 *
 *     area=xlo,ylo,xhi,yhi    the rectangle where the post may go, edges included
 *     axis=a,b                what a tenth costs in x and in y, each 1 to 9; without this line 1 and 1
 *     posts=n                 1 to 64 posts
 *     post=x,y                a line for each post
 *     stops=n                 1 to 512 stops
 *     stop=x,y,visits         a line for each stop, with 1 to 65535 visits
 *     rounds=n                how many rounds the search may take, 0 to 1000
 *
 * Coordinates count tenths of a millimetre from the centre of the deck, -20000 to 20000. A number is one to nine digits, with a '-' before
 * them if it is below 0: '+5', '05' and '-0' are not accepted, and spaces are not either. The travel from one place to another is a times
 * the difference in x plus b times that in y.
 *
 * The report is six lines, each ended by byte 10, with no byte 0 behind them:
 *
 *     state=done              or state=stopped, where the rounds ran out
 *     at=x,y                  the place
 *     high=n                  the travel with a post at that place: the sum over the stops of visits times the travel to the closest post
 *     low=n                   no place of the area has less travel than this; it is never below 0, and once done it equals high
 *     before=n                the travel without the new post
 *     rounds=n                the rounds taken
 *
 * Travel is in tenths of a millimetre where a and b are 1. Once done, every other place of the area has more travel, or as much and a
 * larger x, or as much, the same x and a larger y.
 *
 * Result: the number of bytes written, 1 to 128, or a negative number where the job is refused:
 *
 *     -1  the job has more than 16384 bytes: shorten it
 *     -2  a line is not spelled as above, or there are too few lines or too many: mend the job's lines
 *     -3  a number is out of its range: mend it
 *     -4  the area is empty, xlo > xhi or ylo > yhi: give the smaller first
 *     -5  the job has no post: give one
 *     -6  the job has no stop: give one
 *     -8  out_length is less than 128: lend a larger output
 *
 * Where several apply, -1 is given before all others; then that of the first line at fault, which is -2 if it is not spelled as above and
 * -3 otherwise; then the first of -4, -5, -6 and -8.
 * The program siting_cli tells the line of a -2 or a -3. -7, too small a cell space, is a refusal of the library's call in Rattle, to
 * which the caller lends that space; this entry asks for none, whatever the rounds, and never gives it.
 *
 * The report stands at the front of out, and no other byte of out changes; where the job is refused, none does. The job's bytes are only
 * read.
 *
 * What the caller owes:
 *   - job and out are not null, also where their length is 0, and are valid for job_length bytes to read and out_length bytes to read
 *     and write. Neither length is more than PTRDIFF_MAX.
 *   - job and out do not overlap, and during the call no other thread writes to the job's bytes or uses those of out.
 *   - The calling thread has 256 KiB of stack left.
 *
 * Every call ends, and any bytes may be given as a job. Nothing is kept between calls, and no memory but the stack is used, so several
 * threads may call at once.
 */
int64_t siting_report(const uint8_t *job, size_t job_length, uint8_t *out, size_t out_length);

#ifdef __cplusplus
}
#endif

#endif
