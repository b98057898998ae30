/*
 * What one field takes of a lent frame, and how much stack it and every function
 * of include/lavendelzug.h take. Ends with an error at the first difference.
 * Standard input has the lines of document 004's reports.
 */
#include "doors.h"
#include "field.h"
#include "mark.h"

#include <stdio.h>

int main(void)
{
    check_bytes_touched();
    printf("the bytes that a field is read from: those that hold it\n");
    check_marks();
    check_doors();
    return 0;
}
