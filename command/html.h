/* Text in a page: HTML that is XML too. */
#ifndef HTML_H
#define HTML_H

/* A text in which nothing is markup. What is no character, or a control character, becomes
 * U+FFFD. */
const char *html_text(const char *words);

#endif
