/*
 * Tokenizer of the command line of a service port.
 */
#include <ctype.h>
#include <stdbool.h>
#include <stdint.h>
#include <stdlib.h>
#include <string.h>

#define TOKEN_MAX 24
#define STR(x) #x
#define KEYWORD(name) {STR(name), sizeof(STR(name)) - 1, TOK_##name}

typedef enum { TOK_END, TOK_NUMBER, TOK_NAME, TOK_PUNCT, TOK_get, TOK_set, TOK_reset, TOK_ERROR } token_kind;

struct keyword {
    const char *text;
    size_t length;
    token_kind kind;
};

static const struct keyword keywords[] = {
    KEYWORD(get),
    KEYWORD(set),
    KEYWORD(reset),
};

struct token {
    token_kind kind;
    union {
        long number;
        char name[TOKEN_MAX];
        char punct;
    } u;
};

struct lexer {
    const char *at;
    const char *end;
    unsigned line;
};

static inline int peek(const struct lexer *lx)
{
    return lx->at < lx->end ? *lx->at : -1;
}

static int advance(struct lexer *lx)
{
    int c = peek(lx);
    if (c != -1) {
        lx->at++;
        lx->line += c == '\n';
    }
    return c;
}

static token_kind read_name(struct lexer *lx, struct token *tok)
{
    size_t i, n = 0;
    int c;

    while (isalnum(c = peek(lx)) || c == '_') {
        if (n < TOKEN_MAX - 1)
            tok->u.name[n++] = (char)advance(lx);
        else
            return TOK_ERROR;
    }
    tok->u.name[n] = '\0';
    for (i = 0; i < sizeof keywords / sizeof *keywords; i++)
        if (n == keywords[i].length && !memcmp(tok->u.name, keywords[i].text, n))
            return keywords[i].kind;
    return TOK_NAME;
}

static token_kind read_number(struct lexer *lx, struct token *tok)
{
    char *stop;

    tok->u.number = strtol(lx->at, &stop, 0);
    if (stop == lx->at)
        return TOK_ERROR;
    lx->at = stop;
    return TOK_NUMBER;
}

token_kind lexer_next(struct lexer *lx, struct token *tok)
{
    int c;

    while ((c = peek(lx)) == ' ' || c == '\t' || c == '\n')
        advance(lx);
    if (c == -1)
        return tok->kind = TOK_END;
    if (isalpha(c))
        return tok->kind = read_name(lx, tok);
    if (isdigit(c) || (c == '-' && lx->at + 1 < lx->end && isdigit(lx->at[1])))
        return tok->kind = read_number(lx, tok);
    tok->u.punct = (char)advance(lx);
    return tok->kind = TOK_PUNCT;
}
