/* The style of the page: light, dark, narrow and printed. */
#ifndef STYLE_H
#define STYLE_H

extern const char page_style[];

#endif
