/* A run record in a file: four lines of text that bear a version and a checksum, and name the circuit that the record is of.

       serifdove record 1
       circuit LENGTH SUM      the circuit's bytes: how many, and their CRC-32
       record COUNT WORD..     the words
       sum SUM                 the CRC-32 of all bytes before this line

   SUM is eight hexadecimal digits, small letters. Numbers are decimal, single spaces part them, a line feed ends each line. */
#ifndef RECORD_FILE_H
#define RECORD_FILE_H

#include "files.h"

/* Writes the record to the file, whole or not at all (write_file). A file there that is no record file is not replaced. */
bool save_record(const char *path, const uint8_t *circuit, size_t circuit_len, const int32_t *record, size_t record_len, message *why);

/* Takes the record from the file, if it is one, whole, of this circuit, of this length, and sound for it. On false the record stays. */
bool load_record(const char *path, const uint8_t *circuit, size_t circuit_len, int32_t *record, size_t record_len, message *why);

#endif
