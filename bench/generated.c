/* The codec that asn1c generates from format2.asn1, or with FORMAT1 defined from format1.asn1, over lines of hexadecimal on
 * standard input.
 *
 *   generated text            twenty lines for each set, those that `ecall decode` writes; the generated decoder drops
 *                             additions that it doesn't know, so where a set has some these lines say `none`
 *   generated own             each set as the generated code prints it, with asn_fprint
 *   generated octets          the octets that the generated encoder gives for each set; `refused` where one isn't read
 *   generated decode ROUNDS   decodes all sets, held in memory, so many times over, and prints the seconds of processor
 *   generated encode ROUNDS   time that this took; encodes them the same way
 */
#include <stdio.h>
#include <stdlib.h>
#include <string.h>
#include <time.h>

#include "ECallMessage.h"

enum { LINE = 514, MOST = 140 };

struct set {
	size_t size;
	unsigned char octets[MOST];
};

static int digit(char c)
{
	if (c >= '0' && c <= '9')
		return c - '0';
	if (c >= 'a' && c <= 'f')
		return c - 'a' + 10;
	if (c >= 'A' && c <= 'F')
		return c - 'A' + 10;
	return -1;
}

/* The set of a line of hexadecimal; no octets where it is none. */
static void read_set(const char *line, struct set *set)
{
	for (set->size = 0; set->size < MOST; set->size++) {
		int high = digit(line[2 * set->size]);
		int low = high < 0 ? -1 : digit(line[2 * set->size + 1]);

		if (low < 0)
			return;
		set->octets[set->size] = high * 16 + low;
	}
}

/* The next line that has a set; false at the end of the input. */
static int next_set(struct set *set)
{
	static char line[LINE];

	while (fgets(line, sizeof line, stdin))
		if (line[0] != '#' && line[0] != '\n') {
			read_set(line, set);
			return 1;
		}
	return 0;
}

static ECallMessage_t *decoded(const struct set *set)
{
	void *message = NULL;
	asn_dec_rval_t answer = uper_decode_complete(NULL, &asn_DEF_ECallMessage, &message, set->octets, set->size);

	if (answer.code == RC_OK)
		return message;
	ASN_STRUCT_FREE(asn_DEF_ECallMessage, message);
	return NULL;
}

static void freed(ECallMessage_t *message)
{
	ASN_STRUCT_FREE(asn_DEF_ECallMessage, message);
}

static const char *yes_no(BOOLEAN_t truth)
{
	return truth ? "yes" : "no";
}

static char stored(const BOOLEAN_t *mark)
{
	return mark && *mark ? '1' : '0';
}

/* Whether other energies are marked, which sets of format 1 don't say. */
static char other_stored(const VehiclePropulsionStorageType_t *fuel)
{
#ifdef FORMAT1
	(void)fuel;
	return '0';
#else
	return stored(fuel->other);
#endif
}

static void print_octets(const uint8_t *octets, int size)
{
	if (!size)
		putchar('-');
	for (int i = 0; i < size; i++)
		printf("%02x", octets[i]);
}

static void print_place(const char *name, long place)
{
	if (place == 2147483647)
		printf("%s unknown\n", name);
	else
		printf("%s %ld\n", name, place);
}

static void print_delta(const char *name, const struct VehicleLocationDelta *delta)
{
	if (delta)
		printf("%s %ld %ld\n", name, delta->latitude, delta->longitude);
	else
		printf("%s none\n", name);
}

static void print_remarks(const MSDStructure_t *set)
{
	long latitude = set->vehicleLocation.latitude;
	long longitude = set->vehicleLocation.longitude;
	const char *none = " none";

	printf("remarks");
	if (latitude != 2147483647 && labs(latitude) > 324000000)
		printf("%s", none = " latitude");
	if (longitude != 2147483647 && labs(longitude) > 648000000)
		printf("%s", none = " longitude");
	if (set->vehicleDirection != 255 && set->vehicleDirection >= 180)
		printf("%s", none = " heading");
	printf("%s\n", strcmp(none, " none") ? "" : none);
}

/* The twenty lines of docs/FORMATS.md, as a program in C would write them. */
static void print_lines(const ECallMessage_t *message)
{
	static const char *const KINDS[] = { "M1", "M2", "M3", "N1", "N2", "N3", "L1e", "L2e", "L3e", "L4e", "L5e", "L6e", "L7e" };
	const MSDStructure_t *set = &message->msd.msdStructure;
	const VIN_t *vin = &set->vehicleIdentificationNumber;
	const VehiclePropulsionStorageType_t *fuel = &set->vehiclePropulsionStorageType;
	const struct AdditionalData *extra = message->msd.optionalAdditionalData;
	time_t seconds = set->timestamp;
	struct tm civil;
	char text[40];

	gmtime_r(&seconds, &civil);
	strftime(text, sizeof text, "%Y-%m-%dT%H:%M:%SZ", &civil);
	printf("format %ld\nmessage %ld\n", message->id, set->messageIdentifier);
	printf("automatic %s\ntest %s\ntrusted %s\n", yes_no(set->control.automaticActivation), yes_no(set->control.testCall),
	       yes_no(set->control.positionCanBeTrusted));
	printf("kind %s\n", KINDS[set->control.vehicleType - 1]);
	printf("vin %s%s%s%s\n", vin->manufacturer.buf, vin->vehicle.buf, vin->modelYear.buf, vin->number.buf);
	printf("fuel %c%c%c%c%c%c%c\nfuel_more none\n", stored(fuel->gasoline), stored(fuel->diesel),
	       stored(fuel->compressedNaturalGas), stored(fuel->liquidPropaneGas), stored(fuel->electric),
	       stored(fuel->hydrogen), other_stored(fuel));
	printf("time %lu %s\n", set->timestamp, text);
	print_place("latitude", set->vehicleLocation.latitude);
	print_place("longitude", set->vehicleLocation.longitude);
	if (set->vehicleDirection == 255)
		printf("heading unknown\n");
	else
		printf("heading %ld\n", set->vehicleDirection);
	print_delta("before1", set->recentVehicleLocationN1);
	print_delta("before2", set->recentVehicleLocationN2);
	if (set->numberOfPassengers)
		printf("passengers %ld\n", *set->numberOfPassengers);
	else
		printf("passengers none\n");
	printf("set_more none\nextra ");
	if (extra) {
		print_octets(extra->oid.buf, extra->oid.size);
		putchar(' ');
		print_octets(extra->data.buf, extra->data.size);
	} else
		printf("none");
	printf("\nmessage_more none\n");
	print_remarks(set);
}

static void print_spelling(const ECallMessage_t *message)
{
	unsigned char octets[1024];
	asn_enc_rval_t answer = uper_encode_to_buffer(&asn_DEF_ECallMessage, (void *)message, octets, sizeof octets);

	if (answer.encoded < 0)
		printf("not encoded");
	else
		print_octets(octets, (answer.encoded + 7) / 8);
	putchar('\n');
}

static int over_lines(const char *what)
{
	struct set set;

	while (next_set(&set)) {
		ECallMessage_t *message = decoded(&set);

		if (!message) {
			printf("refused\n");
			continue;
		}
		if (!strcmp(what, "own"))
			asn_fprint(stdout, &asn_DEF_ECallMessage, message);
		else if (!strcmp(what, "octets"))
			print_spelling(message);
		else
			print_lines(message);
		freed(message);
	}
	return fflush(stdout) ? 5 : 0;
}

static double seconds_now(void)
{
	struct timespec now;

	clock_gettime(CLOCK_PROCESS_CPUTIME_ID, &now);
	return now.tv_sec + now.tv_nsec / 1e9;
}

/* How many of the sets the generated decoder takes. */
static size_t decode_all(const struct set *sets, size_t count)
{
	size_t good = 0;

	for (size_t i = 0; i < count; i++) {
		ECallMessage_t *message = decoded(&sets[i]);

		good += message != NULL;
		freed(message);
	}
	return good;
}

/* How many of the messages the generated encoder writes. */
static size_t encode_all(ECallMessage_t **messages, size_t count)
{
	unsigned char octets[1024];
	size_t good = 0;

	for (size_t i = 0; i < count; i++)
		good += uper_encode_to_buffer(&asn_DEF_ECallMessage, messages[i], octets, sizeof octets).encoded >= 0;
	return good;
}

static int in_memory(int encodes, long rounds)
{
	size_t room = 1024, count = 0, good = 0;
	struct set *sets = malloc(room * sizeof *sets);
	ECallMessage_t **messages;
	double begin;

	while (sets && next_set(&sets[count]))
		if (++count == room)
			sets = realloc(sets, (room *= 2) * sizeof *sets);
	messages = malloc((count + 1) * sizeof *messages);
	if (!sets || !messages)
		return 6;
	if (encodes)
		for (size_t i = 0; i < count; i++)
			if (!(messages[i] = decoded(&sets[i])))
				return 2;
	begin = seconds_now();
	for (long round = 0; round < rounds; round++)
		good += encodes ? encode_all(messages, count) : decode_all(sets, count);
	printf("%.6f %zu of %ld\n", seconds_now() - begin, good, rounds * (long)count);
	return 0;
}

int main(int count, char **words)
{
	if (count == 2 && (!strcmp(words[1], "text") || !strcmp(words[1], "own") || !strcmp(words[1], "octets")))
		return over_lines(words[1]);
	if (count == 3 && (!strcmp(words[1], "decode") || !strcmp(words[1], "encode")))
		return in_memory(words[1][0] == 'e', atol(words[2]));
	fprintf(stderr, "usage: generated text|own|octets|decode ROUNDS|encode ROUNDS < SETS\n");
	return 1;
}
