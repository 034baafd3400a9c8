#include "listings.h"

#include <stdlib.h>
#include <string.h>

struct listing *listings_add(struct listing **listings)
{
    struct listing *listing = calloc(1, sizeof *listing);
    if (listing == NULL)
        return NULL;
    listing->next = *listings;
    listing->place = listings;
    if (listing->next != NULL)
        listing->next->place = &listing->next;
    *listings = listing;
    return listing;
}

void listings_remove(struct listing *listing)
{
    *listing->place = listing->next;
    if (listing->next != NULL)
        listing->next->place = listing->place;
    free(listing->names);
    free(listing);
}

void listings_remove_all(struct listing **listings)
{
    while (*listings != NULL)
        listings_remove(*listings);
}

void listing_take(struct listing *listing, char *names, size_t length)
{
    free(listing->names);
    listing->names = names;
    listing->length = length;
    listing->at = 0;
    listing->number = 0;
}

const char *listing_name(const struct listing *listing)
{
    return listing->at < listing->length ? listing->names + listing->at : NULL;
}

void listing_step(struct listing *listing)
{
    listing->at += strlen(listing->names + listing->at) + 1;
    listing->number++;
}

void listing_seek(struct listing *listing, off_t number)
{
    if (number < listing->number) {
        listing->at = 0;
        listing->number = 0;
    }
    while (listing->number < number && listing_name(listing) != NULL)
        listing_step(listing);
}
