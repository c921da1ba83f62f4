//! The accessors of views. Written by bench/accessors.py from crates/accessors.txt: change that and run it.

/// An accessor of a view: what is read of the nodes of one kind.
#[derive(Clone, Copy, Debug, PartialEq, Eq, PartialOrd, Ord, Hash)]
#[repr(u32)]
#[non_exhaustive]
pub enum Accessor {
    /// Of a `LineComment`, a text of the tree: the content of the comment: its text without a leading `//`.
    LineCommentText,
    /// Of a `BlockComment`, a text of the tree: the content of the comment: the text between its two marks, or the whole text if one is missing.
    BlockCommentText,
    /// Of a `Text`, a text of the tree: the text.
    TextGet,
    /// Of a `RawLang`, a text of the tree: the language tag.
    RawLangGet,
    /// Of a `Link`, a text of the tree: the address.
    LinkGet,
    /// Of an `Ident`, a text of the tree: the identifier.
    IdentGet,
    /// Of a `MathIdent`, a text of the tree: the identifier.
    MathIdentGet,
    /// Of an `Escape`, a character: the escaped character. It is U+0000 if the text names no character.
    EscapeGet,
    /// Of a `Shorthand`, a character: the character that the signs stand for. It is U+0000 if the text is no shorthand.
    ShorthandGet,
    /// Of a `MathShorthand`, a character: the character that the signs stand for. It is U+0000 if the text is no shorthand.
    MathShorthandGet,
    /// Of a `SmartQuote`, a boolean: whether it is a double quote.
    SmartQuoteDouble,
    /// Of a `Label`, a text of the tree: the name: the text without all `<` at its beginning and all `>` at its end.
    LabelGet,
    /// Of a `MathText`, a text of the tree: the character or the number, as it is written.
    MathTextGet,
    /// Of a `MathText`, a boolean: whether it is a number: its first character is one by Unicode's general categories.
    MathTextIsNumber,
    /// Of a `MathPrimes`, a natural number, or none: the number of primes.
    MathPrimesCount,
    /// Of a `Bool`, a boolean: the value: whether the text is `true`.
    BoolGet,
    /// Of an `Int`, an integer with a sign: the value. It is 0 if the text is no integer, or one that 64 bits with a sign don't hold.
    IntGet,
    /// Of a `Float`, a text of the tree: the number, as it is written.
    FloatGet,
    /// Of a `Numeric`, a text of the tree: the number without its unit, as it is written.
    NumericNumber,
    /// Of a `Numeric`, a text of the tree: the unit: `pt`, `mm`, `cm`, `in`, `rad`, `deg`, `em` or `fr`, or `%` also for any other one.
    NumericUnit,
    /// Of a `Str`, a text that the call makes: the value: the text without its quotes, with each escape sequence read.
    StrGet,
    /// Of a `Math`, a boolean: whether these are the contents of parens that were removed.
    MathWasDeparenthesized,
    /// Of a `Heading`, a natural number, or none: the section depth: the number of bytes of the marker, or 1 if it is empty or missing.
    HeadingDepth,
    /// Of an `EnumItem`, a natural number, or none: the number that the text gives to the item, if it gives one.
    EnumItemNumber,
    /// Of a `Ref`, a text of the tree: the target: the marker's text without all `@` at its beginning.
    RefTarget,
    /// Of an `Equation`, a boolean: whether the equation is a block: its second child and its last child but one are spaces.
    EquationBlock,
    /// Of a `MathRoot`, a natural number, or none: the index of a root by its sign: 3 or 4, if it has one.
    MathRootIndex,
    /// Of a `Unary`, a text of the tree: the operator, as it is written: that of the first child that is a unary operator, or else `+`.
    UnaryOp,
    /// Of a `Unary`, a natural number, or none: the precedence of the operator, from 4 to 7. An operator with a larger number binds tighter.
    UnaryPrecedence,
    /// Of a `Binary`, a text of the tree: the operator, as it is written: that of the first child that is a binary operator, or else `+`.
    BinaryOp,
    /// Of a `Binary`, a natural number, or none: the precedence of the operator, from 1 to 6. An operator with a larger number binds tighter.
    BinaryPrecedence,
    /// Of a `Binary`, a boolean: whether the operator groups from the right, as assignments do.
    BinaryIsRight,
    /// Of an `Args`, a boolean: whether a comma comes after the last argument.
    ArgsTrailingComma,
    /// Of a `Strong`, another node, or none: the strong content.
    StrongBody,
    /// Of an `Emph`, another node, or none: the emphasized content.
    EmphBody,
    /// Of a `ContentBlock`, another node, or none: the block's content.
    ContentBlockBody,
    /// Of a `ListItem`, another node, or none: the item's content.
    ListItemBody,
    /// Of an `EnumItem`, another node, or none: the item's content.
    EnumItemBody,
    /// Of a `TermItem`, another node, or none: the term that is described.
    TermItemTerm,
    /// Of a `TermItem`, another node, or none: the description of the term.
    TermItemDescription,
    /// Of a `Heading`, another node, or none: the heading's content.
    HeadingBody,
    /// Of a `Ref`, another node, or none: the supplement: the last content block, if there is one.
    RefSupplement,
    /// Of a `Raw`, another node, or none: the language tag, which only a text between delimiters of at least three backticks can have.
    RawLang,
    /// Of an `Equation`, another node, or none: the equation's content.
    EquationBody,
    /// Of a `MathFieldAccess`, another node, or none: the target whose field is accessed.
    MathFieldAccessTarget,
    /// Of a `MathFieldAccess`, another node, or none: the field's name.
    MathFieldAccessField,
    /// Of a `MathCall`, another node, or none: the function that is called.
    MathCallCallee,
    /// Of a `MathCall`, another node, or none: the arguments of the call.
    MathCallArgs,
    /// Of a `MathDelimited`, another node, or none: the opening delimiter.
    MathDelimitedOpen,
    /// Of a `MathDelimited`, another node, or none: the contents without the delimiters.
    MathDelimitedBody,
    /// Of a `MathDelimited`, another node, or none: the closing delimiter.
    MathDelimitedClose,
    /// Of a `MathAttach`, another node, or none: the base of the attachments.
    MathAttachBase,
    /// Of a `MathAttach`, another node, or none: the bottom attachment: the first expression after the first underscore.
    MathAttachBottom,
    /// Of a `MathAttach`, another node, or none: the top attachment: the first expression after the first hat.
    MathAttachTop,
    /// Of a `MathAttach`, another node, or none: the primes, if they come directly after the base.
    MathAttachPrimes,
    /// Of a `MathFrac`, another node, or none: the numerator.
    MathFracNum,
    /// Of a `MathFrac`, another node, or none: the denominator.
    MathFracDenom,
    /// Of a `MathRoot`, another node, or none: the radicand of the root.
    MathRootRadicand,
    /// Of a `CodeBlock`, another node, or none: the block's code.
    CodeBlockBody,
    /// Of a `Parenthesized`, another node, or none: the expression in the parens.
    ParenthesizedExpr,
    /// Of a `Parenthesized`, another node, or none: the pattern in the parens, if they are a pattern.
    ParenthesizedPattern,
    /// Of a `Named`, another node, or none: the name.
    NamedName,
    /// Of a `Named`, another node, or none: the expression after the name.
    NamedExpr,
    /// Of a `Named`, another node, or none: the pattern after the name, if the pair is part of a pattern.
    NamedPattern,
    /// Of a `Keyed`, another node, or none: the key.
    KeyedKey,
    /// Of a `Keyed`, another node, or none: the expression after the key.
    KeyedExpr,
    /// Of a `Spread`, another node, or none: the expression that is spread.
    SpreadExpr,
    /// Of a `Spread`, another node, or none: the name of the sink, if it has one, where the spread is in a pattern or among parameters.
    SpreadSinkIdent,
    /// Of a `Spread`, another node, or none: the expression of the sink, if it has one, where the spread is in a pattern.
    SpreadSinkExpr,
    /// Of a `Unary`, another node, or none: the operand.
    UnaryExpr,
    /// Of a `Binary`, another node, or none: the left operand.
    BinaryLhs,
    /// Of a `Binary`, another node, or none: the right operand.
    BinaryRhs,
    /// Of a `FieldAccess`, another node, or none: the target whose field is accessed.
    FieldAccessTarget,
    /// Of a `FieldAccess`, another node, or none: the field's name.
    FieldAccessField,
    /// Of a `FuncCall`, another node, or none: the function that is called.
    FuncCallCallee,
    /// Of a `FuncCall`, another node, or none: the arguments of the call.
    FuncCallArgs,
    /// Of a `Closure`, another node, or none: the closure's name, if it has one.
    ClosureName,
    /// Of a `Closure`, another node, or none: the closure's parameters.
    ClosureParams,
    /// Of a `Closure`, another node, or none: the closure's body.
    ClosureBody,
    /// Of a `LetBinding`, another node, or none: the target of the binding: the closure's name where it binds a closure, or else the pattern.
    LetBindingKind,
    /// Of a `LetBinding`, another node, or none: the value that is bound, if there is one. A closure is the value itself.
    LetBindingInit,
    /// Of a `DestructAssignment`, another node, or none: the pattern whose parts are assigned to.
    DestructAssignmentPattern,
    /// Of a `DestructAssignment`, another node, or none: the expression that is assigned.
    DestructAssignmentValue,
    /// Of a `SetRule`, another node, or none: the function whose defaults are set.
    SetRuleTarget,
    /// Of a `SetRule`, another node, or none: the arguments that become the defaults.
    SetRuleArgs,
    /// Of a `SetRule`, another node, or none: the condition under which the rule holds, if there is one.
    SetRuleCondition,
    /// Of a `ShowRule`, another node, or none: the selector of the rule, if there is one.
    ShowRuleSelector,
    /// Of a `ShowRule`, another node, or none: the transformation of what the rule selects.
    ShowRuleTransform,
    /// Of a `Contextual`, another node, or none: the expression that depends on the context.
    ContextualBody,
    /// Of a `Conditional`, another node, or none: the condition.
    ConditionalCondition,
    /// Of a `Conditional`, another node, or none: the expression for a true condition.
    ConditionalIfBody,
    /// Of a `Conditional`, another node, or none: the expression for a false condition, if there is one.
    ConditionalElseBody,
    /// Of a `WhileLoop`, another node, or none: the condition.
    WhileLoopCondition,
    /// Of a `WhileLoop`, another node, or none: the loop's body.
    WhileLoopBody,
    /// Of a `ForLoop`, another node, or none: the pattern that each item is bound to.
    ForLoopPattern,
    /// Of a `ForLoop`, another node, or none: the value that the loop goes through.
    ForLoopIterable,
    /// Of a `ForLoop`, another node, or none: the loop's body.
    ForLoopBody,
    /// Of a `FuncReturn`, another node, or none: the value that is returned, if there is one.
    FuncReturnBody,
    /// Of an `ImportItemPath`, another node, or none: the path's last part, which is the item's name.
    ImportItemPathName,
    /// Of a `RenamedImportItem`, another node, or none: the path to the item.
    RenamedImportItemPath,
    /// Of a `RenamedImportItem`, another node, or none: the item's own name, which is the name in its path.
    RenamedImportItemOriginalName,
    /// Of a `RenamedImportItem`, another node, or none: the name that the item gets.
    RenamedImportItemNewName,
    /// Of a `ModuleImport`, another node, or none: the module or the path that the import names.
    ModuleImportSource,
    /// Of a `ModuleImport`, another node, or none: what is imported, if the import names it: the star for everything, or the import items.
    ModuleImportImports,
    /// Of a `ModuleImport`, another node, or none: the name that the module gets, if it gets one.
    ModuleImportNewName,
    /// Of a `ModuleInclude`, another node, or none: the path that is included.
    ModuleIncludeSource,
    /// Of a `Markup`, other nodes, by an index: the expressions and spaces, without each space directly after a statement.
    MarkupExprs,
    /// Of a `Math`, other nodes, by an index: the expressions and spaces.
    MathExprs,
    /// Of a `Code`, other nodes, by an index: the expressions.
    CodeExprs,
    /// Of a `Raw`, other nodes, by an index: the lines of the text.
    RawLines,
    /// Of a `MathArgs`, other nodes, by an index: the arguments, spaces, commas, parens and semicolons, without semicolons that only end an expression after a hash.
    MathArgsContentItems,
    /// Of a `MathArgs`, other nodes, by an index: the arguments.
    MathArgsArgItems,
    /// Of an `Array`, other nodes, by an index: the items.
    ArrayItems,
    /// Of a `Dict`, other nodes, by an index: the items.
    DictItems,
    /// Of a `Destructuring`, other nodes, by an index: the items.
    DestructuringItems,
    /// Of an `Args`, other nodes, by an index: the arguments.
    ArgsItems,
    /// Of a `Params`, other nodes, by an index: the parameters.
    ParamsChildren,
    /// Of an `ImportItems`, other nodes, by an index: the items.
    ImportItemsIter,
    /// Of an `ImportItemPath`, other nodes, by an index: the path's parts.
    ImportItemPathIter,
}
