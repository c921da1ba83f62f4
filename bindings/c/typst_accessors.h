/* The accessors of views, by number. Written by bench/accessors.py from crates/accessors.txt: change that and run it. */
#ifndef TYPST_ACCESSORS_H
#define TYPST_ACCESSORS_H

enum {
    /** Of a LineComment, a text of the tree: the content of the comment: its text without a leading `//`. */
    TYPST_VIEW_LINE_COMMENT_TEXT = 0,
    /** Of a BlockComment, a text of the tree: the content of the comment: the text between its two marks, or the whole text if one is missing. */
    TYPST_VIEW_BLOCK_COMMENT_TEXT = 1,
    /** Of a Text, a text of the tree: the text. */
    TYPST_VIEW_TEXT_GET = 2,
    /** Of a RawLang, a text of the tree: the language tag. */
    TYPST_VIEW_RAW_LANG_GET = 3,
    /** Of a Link, a text of the tree: the address. */
    TYPST_VIEW_LINK_GET = 4,
    /** Of an Ident, a text of the tree: the identifier. */
    TYPST_VIEW_IDENT_GET = 5,
    /** Of a MathIdent, a text of the tree: the identifier. */
    TYPST_VIEW_MATH_IDENT_GET = 6,
    /** Of an Escape, a character: the escaped character. It is U+0000 if the text names no character. */
    TYPST_VIEW_ESCAPE_GET = 7,
    /** Of a Shorthand, a character: the character that the signs stand for. It is U+0000 if the text is no shorthand. */
    TYPST_VIEW_SHORTHAND_GET = 8,
    /** Of a MathShorthand, a character: the character that the signs stand for. It is U+0000 if the text is no shorthand. */
    TYPST_VIEW_MATH_SHORTHAND_GET = 9,
    /** Of a SmartQuote, a boolean: whether it is a double quote. */
    TYPST_VIEW_SMART_QUOTE_DOUBLE = 10,
    /** Of a Label, a text of the tree: the name: the text without all `<` at its beginning and all `>` at its end. */
    TYPST_VIEW_LABEL_GET = 11,
    /** Of a MathText, a text of the tree: the character or the number, as it is written. */
    TYPST_VIEW_MATH_TEXT_GET = 12,
    /** Of a MathText, a boolean: whether it is a number: its first character is one by Unicode's general categories. */
    TYPST_VIEW_MATH_TEXT_IS_NUMBER = 13,
    /** Of a MathPrimes, a natural number, or none: the number of primes. */
    TYPST_VIEW_MATH_PRIMES_COUNT = 14,
    /** Of a Bool, a boolean: the value: whether the text is `true`. */
    TYPST_VIEW_BOOL_GET = 15,
    /** Of an Int, an integer with a sign: the value. It is 0 if the text is no integer, or one that 64 bits with a sign don't hold. */
    TYPST_VIEW_INT_GET = 16,
    /** Of a Float, a text of the tree: the number, as it is written. */
    TYPST_VIEW_FLOAT_GET = 17,
    /** Of a Numeric, a text of the tree: the number without its unit, as it is written. */
    TYPST_VIEW_NUMERIC_NUMBER = 18,
    /** Of a Numeric, a text of the tree: the unit: `pt`, `mm`, `cm`, `in`, `rad`, `deg`, `em` or `fr`, or `%` also for any other one. */
    TYPST_VIEW_NUMERIC_UNIT = 19,
    /** Of a Str, a text that the call makes: the value: the text without its quotes, with each escape sequence read. */
    TYPST_VIEW_STR_GET = 20,
    /** Of a Math, a boolean: whether these are the contents of parens that were removed. */
    TYPST_VIEW_MATH_WAS_DEPARENTHESIZED = 21,
    /** Of a Heading, a natural number, or none: the section depth: the number of bytes of the marker, or 1 if it is empty or missing. */
    TYPST_VIEW_HEADING_DEPTH = 22,
    /** Of an EnumItem, a natural number, or none: the number that the text gives to the item, if it gives one. */
    TYPST_VIEW_ENUM_ITEM_NUMBER = 23,
    /** Of a Ref, a text of the tree: the target: the marker's text without all `@` at its beginning. */
    TYPST_VIEW_REF_TARGET = 24,
    /** Of an Equation, a boolean: whether the equation is a block: its second child and its last child but one are spaces. */
    TYPST_VIEW_EQUATION_BLOCK = 25,
    /** Of a MathRoot, a natural number, or none: the index of a root by its sign: 3 or 4, if it has one. */
    TYPST_VIEW_MATH_ROOT_INDEX = 26,
    /** Of a Unary, a text of the tree: the operator, as it is written: that of the first child that is a unary operator, or else `+`. */
    TYPST_VIEW_UNARY_OP = 27,
    /** Of a Unary, a natural number, or none: the precedence of the operator, from 4 to 7. An operator with a larger number binds tighter. */
    TYPST_VIEW_UNARY_PRECEDENCE = 28,
    /** Of a Binary, a text of the tree: the operator, as it is written: that of the first child that is a binary operator, or else `+`. */
    TYPST_VIEW_BINARY_OP = 29,
    /** Of a Binary, a natural number, or none: the precedence of the operator, from 1 to 6. An operator with a larger number binds tighter. */
    TYPST_VIEW_BINARY_PRECEDENCE = 30,
    /** Of a Binary, a boolean: whether the operator groups from the right, as assignments do. */
    TYPST_VIEW_BINARY_IS_RIGHT = 31,
    /** Of an Args, a boolean: whether a comma comes after the last argument. */
    TYPST_VIEW_ARGS_TRAILING_COMMA = 32,
    /** Of a Strong, another node, or none: the strong content. */
    TYPST_VIEW_STRONG_BODY = 33,
    /** Of an Emph, another node, or none: the emphasized content. */
    TYPST_VIEW_EMPH_BODY = 34,
    /** Of a ContentBlock, another node, or none: the block's content. */
    TYPST_VIEW_CONTENT_BLOCK_BODY = 35,
    /** Of a ListItem, another node, or none: the item's content. */
    TYPST_VIEW_LIST_ITEM_BODY = 36,
    /** Of an EnumItem, another node, or none: the item's content. */
    TYPST_VIEW_ENUM_ITEM_BODY = 37,
    /** Of a TermItem, another node, or none: the term that is described. */
    TYPST_VIEW_TERM_ITEM_TERM = 38,
    /** Of a TermItem, another node, or none: the description of the term. */
    TYPST_VIEW_TERM_ITEM_DESCRIPTION = 39,
    /** Of a Heading, another node, or none: the heading's content. */
    TYPST_VIEW_HEADING_BODY = 40,
    /** Of a Ref, another node, or none: the supplement: the last content block, if there is one. */
    TYPST_VIEW_REF_SUPPLEMENT = 41,
    /** Of a Raw, another node, or none: the language tag, which only a text between delimiters of at least three backticks can have. */
    TYPST_VIEW_RAW_LANG = 42,
    /** Of an Equation, another node, or none: the equation's content. */
    TYPST_VIEW_EQUATION_BODY = 43,
    /** Of a MathFieldAccess, another node, or none: the target whose field is accessed. */
    TYPST_VIEW_MATH_FIELD_ACCESS_TARGET = 44,
    /** Of a MathFieldAccess, another node, or none: the field's name. */
    TYPST_VIEW_MATH_FIELD_ACCESS_FIELD = 45,
    /** Of a MathCall, another node, or none: the function that is called. */
    TYPST_VIEW_MATH_CALL_CALLEE = 46,
    /** Of a MathCall, another node, or none: the arguments of the call. */
    TYPST_VIEW_MATH_CALL_ARGS = 47,
    /** Of a MathDelimited, another node, or none: the opening delimiter. */
    TYPST_VIEW_MATH_DELIMITED_OPEN = 48,
    /** Of a MathDelimited, another node, or none: the contents without the delimiters. */
    TYPST_VIEW_MATH_DELIMITED_BODY = 49,
    /** Of a MathDelimited, another node, or none: the closing delimiter. */
    TYPST_VIEW_MATH_DELIMITED_CLOSE = 50,
    /** Of a MathAttach, another node, or none: the base of the attachments. */
    TYPST_VIEW_MATH_ATTACH_BASE = 51,
    /** Of a MathAttach, another node, or none: the bottom attachment: the first expression after the first underscore. */
    TYPST_VIEW_MATH_ATTACH_BOTTOM = 52,
    /** Of a MathAttach, another node, or none: the top attachment: the first expression after the first hat. */
    TYPST_VIEW_MATH_ATTACH_TOP = 53,
    /** Of a MathAttach, another node, or none: the primes, if they come directly after the base. */
    TYPST_VIEW_MATH_ATTACH_PRIMES = 54,
    /** Of a MathFrac, another node, or none: the numerator. */
    TYPST_VIEW_MATH_FRAC_NUM = 55,
    /** Of a MathFrac, another node, or none: the denominator. */
    TYPST_VIEW_MATH_FRAC_DENOM = 56,
    /** Of a MathRoot, another node, or none: the radicand of the root. */
    TYPST_VIEW_MATH_ROOT_RADICAND = 57,
    /** Of a CodeBlock, another node, or none: the block's code. */
    TYPST_VIEW_CODE_BLOCK_BODY = 58,
    /** Of a Parenthesized, another node, or none: the expression in the parens. */
    TYPST_VIEW_PARENTHESIZED_EXPR = 59,
    /** Of a Parenthesized, another node, or none: the pattern in the parens, if they are a pattern. */
    TYPST_VIEW_PARENTHESIZED_PATTERN = 60,
    /** Of a Named, another node, or none: the name. */
    TYPST_VIEW_NAMED_NAME = 61,
    /** Of a Named, another node, or none: the expression after the name. */
    TYPST_VIEW_NAMED_EXPR = 62,
    /** Of a Named, another node, or none: the pattern after the name, if the pair is part of a pattern. */
    TYPST_VIEW_NAMED_PATTERN = 63,
    /** Of a Keyed, another node, or none: the key. */
    TYPST_VIEW_KEYED_KEY = 64,
    /** Of a Keyed, another node, or none: the expression after the key. */
    TYPST_VIEW_KEYED_EXPR = 65,
    /** Of a Spread, another node, or none: the expression that is spread. */
    TYPST_VIEW_SPREAD_EXPR = 66,
    /** Of a Spread, another node, or none: the name of the sink, if it has one, where the spread is in a pattern or among parameters. */
    TYPST_VIEW_SPREAD_SINK_IDENT = 67,
    /** Of a Spread, another node, or none: the expression of the sink, if it has one, where the spread is in a pattern. */
    TYPST_VIEW_SPREAD_SINK_EXPR = 68,
    /** Of a Unary, another node, or none: the operand. */
    TYPST_VIEW_UNARY_EXPR = 69,
    /** Of a Binary, another node, or none: the left operand. */
    TYPST_VIEW_BINARY_LHS = 70,
    /** Of a Binary, another node, or none: the right operand. */
    TYPST_VIEW_BINARY_RHS = 71,
    /** Of a FieldAccess, another node, or none: the target whose field is accessed. */
    TYPST_VIEW_FIELD_ACCESS_TARGET = 72,
    /** Of a FieldAccess, another node, or none: the field's name. */
    TYPST_VIEW_FIELD_ACCESS_FIELD = 73,
    /** Of a FuncCall, another node, or none: the function that is called. */
    TYPST_VIEW_FUNC_CALL_CALLEE = 74,
    /** Of a FuncCall, another node, or none: the arguments of the call. */
    TYPST_VIEW_FUNC_CALL_ARGS = 75,
    /** Of a Closure, another node, or none: the closure's name, if it has one. */
    TYPST_VIEW_CLOSURE_NAME = 76,
    /** Of a Closure, another node, or none: the closure's parameters. */
    TYPST_VIEW_CLOSURE_PARAMS = 77,
    /** Of a Closure, another node, or none: the closure's body. */
    TYPST_VIEW_CLOSURE_BODY = 78,
    /** Of a LetBinding, another node, or none: the target of the binding: the closure's name where it binds a closure, or else the pattern. */
    TYPST_VIEW_LET_BINDING_KIND = 79,
    /** Of a LetBinding, another node, or none: the value that is bound, if there is one. A closure is the value itself. */
    TYPST_VIEW_LET_BINDING_INIT = 80,
    /** Of a DestructAssignment, another node, or none: the pattern whose parts are assigned to. */
    TYPST_VIEW_DESTRUCT_ASSIGNMENT_PATTERN = 81,
    /** Of a DestructAssignment, another node, or none: the expression that is assigned. */
    TYPST_VIEW_DESTRUCT_ASSIGNMENT_VALUE = 82,
    /** Of a SetRule, another node, or none: the function whose defaults are set. */
    TYPST_VIEW_SET_RULE_TARGET = 83,
    /** Of a SetRule, another node, or none: the arguments that become the defaults. */
    TYPST_VIEW_SET_RULE_ARGS = 84,
    /** Of a SetRule, another node, or none: the condition under which the rule holds, if there is one. */
    TYPST_VIEW_SET_RULE_CONDITION = 85,
    /** Of a ShowRule, another node, or none: the selector of the rule, if there is one. */
    TYPST_VIEW_SHOW_RULE_SELECTOR = 86,
    /** Of a ShowRule, another node, or none: the transformation of what the rule selects. */
    TYPST_VIEW_SHOW_RULE_TRANSFORM = 87,
    /** Of a Contextual, another node, or none: the expression that depends on the context. */
    TYPST_VIEW_CONTEXTUAL_BODY = 88,
    /** Of a Conditional, another node, or none: the condition. */
    TYPST_VIEW_CONDITIONAL_CONDITION = 89,
    /** Of a Conditional, another node, or none: the expression for a true condition. */
    TYPST_VIEW_CONDITIONAL_IF_BODY = 90,
    /** Of a Conditional, another node, or none: the expression for a false condition, if there is one. */
    TYPST_VIEW_CONDITIONAL_ELSE_BODY = 91,
    /** Of a WhileLoop, another node, or none: the condition. */
    TYPST_VIEW_WHILE_LOOP_CONDITION = 92,
    /** Of a WhileLoop, another node, or none: the loop's body. */
    TYPST_VIEW_WHILE_LOOP_BODY = 93,
    /** Of a ForLoop, another node, or none: the pattern that each item is bound to. */
    TYPST_VIEW_FOR_LOOP_PATTERN = 94,
    /** Of a ForLoop, another node, or none: the value that the loop goes through. */
    TYPST_VIEW_FOR_LOOP_ITERABLE = 95,
    /** Of a ForLoop, another node, or none: the loop's body. */
    TYPST_VIEW_FOR_LOOP_BODY = 96,
    /** Of a FuncReturn, another node, or none: the value that is returned, if there is one. */
    TYPST_VIEW_FUNC_RETURN_BODY = 97,
    /** Of an ImportItemPath, another node, or none: the path's last part, which is the item's name. */
    TYPST_VIEW_IMPORT_ITEM_PATH_NAME = 98,
    /** Of a RenamedImportItem, another node, or none: the path to the item. */
    TYPST_VIEW_RENAMED_IMPORT_ITEM_PATH = 99,
    /** Of a RenamedImportItem, another node, or none: the item's own name, which is the name in its path. */
    TYPST_VIEW_RENAMED_IMPORT_ITEM_ORIGINAL_NAME = 100,
    /** Of a RenamedImportItem, another node, or none: the name that the item gets. */
    TYPST_VIEW_RENAMED_IMPORT_ITEM_NEW_NAME = 101,
    /** Of a ModuleImport, another node, or none: the module or the path that the import names. */
    TYPST_VIEW_MODULE_IMPORT_SOURCE = 102,
    /** Of a ModuleImport, another node, or none: what is imported, if the import names it: the star for everything, or the import items. */
    TYPST_VIEW_MODULE_IMPORT_IMPORTS = 103,
    /** Of a ModuleImport, another node, or none: the name that the module gets, if it gets one. */
    TYPST_VIEW_MODULE_IMPORT_NEW_NAME = 104,
    /** Of a ModuleInclude, another node, or none: the path that is included. */
    TYPST_VIEW_MODULE_INCLUDE_SOURCE = 105,
    /** Of a Markup, other nodes, by an index: the expressions and spaces, without each space directly after a statement. */
    TYPST_VIEW_MARKUP_EXPRS = 106,
    /** Of a Math, other nodes, by an index: the expressions and spaces. */
    TYPST_VIEW_MATH_EXPRS = 107,
    /** Of a Code, other nodes, by an index: the expressions. */
    TYPST_VIEW_CODE_EXPRS = 108,
    /** Of a Raw, other nodes, by an index: the lines of the text. */
    TYPST_VIEW_RAW_LINES = 109,
    /** Of a MathArgs, other nodes, by an index: the arguments, spaces, commas, parens and semicolons, without semicolons that only end an expression after a hash. */
    TYPST_VIEW_MATH_ARGS_CONTENT_ITEMS = 110,
    /** Of a MathArgs, other nodes, by an index: the arguments. */
    TYPST_VIEW_MATH_ARGS_ARG_ITEMS = 111,
    /** Of an Array, other nodes, by an index: the items. */
    TYPST_VIEW_ARRAY_ITEMS = 112,
    /** Of a Dict, other nodes, by an index: the items. */
    TYPST_VIEW_DICT_ITEMS = 113,
    /** Of a Destructuring, other nodes, by an index: the items. */
    TYPST_VIEW_DESTRUCTURING_ITEMS = 114,
    /** Of an Args, other nodes, by an index: the arguments. */
    TYPST_VIEW_ARGS_ITEMS = 115,
    /** Of a Params, other nodes, by an index: the parameters. */
    TYPST_VIEW_PARAMS_CHILDREN = 116,
    /** Of an ImportItems, other nodes, by an index: the items. */
    TYPST_VIEW_IMPORT_ITEMS_ITER = 117,
    /** Of an ImportItemPath, other nodes, by an index: the path's parts. */
    TYPST_VIEW_IMPORT_ITEM_PATH_ITER = 118,
    /** The number of accessors. */
    TYPST_ACCESSORS = 119
};

#endif
