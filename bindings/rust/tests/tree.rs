//! Tests of trees that are built and edited.
use std::collections::HashSet;
use typst_tree::{Builder, Error, FileId, Node, NodeClass, Severity, Side, Source, Span, SyntaxKind, Touched, Tree};

/// `Markup[Text:Hello Strong[Text:big Error:*] Text:world]`
fn built() -> Result<Tree, Error> {
    let mut builder = Builder::new()?;
    builder.leaf(SyntaxKind::Text, "Hello")?;
    builder
        .leaf(SyntaxKind::Text, "big")?
        .error("unclosed", "*")?
        .wrap(SyntaxKind::Strong, 2)?;
    builder.leaf(SyntaxKind::Text, "world")?.wrap(SyntaxKind::Markup, 3)?;
    assert_eq!(builder.count(), 1);
    Ok(builder.number(FileId::MIN, Span::FULL)?)
}

#[test]
fn a_node_tells_what_it_is_and_where_it_stands() -> Result<(), Error> {
    let tree = built()?;
    let strong = tree.at(&[1]).unwrap();
    assert_eq!(strong.kind(), SyntaxKind::Strong);
    assert_eq!((strong.len(), strong.descendants(), strong.index()), (4, 3, 1));
    assert_eq!(
        (strong.is_inner(), strong.is_leaf(), strong.is_empty()),
        (true, false, false)
    );
    assert_eq!((strong.has_errors(), strong.has_warnings()), (true, false));
    assert_eq!(
        (strong.range()?, strong.leaf_text().as_str(), strong.text()?.as_str()),
        (5..9, "", "big*")
    );
    let error = strong.child(1).unwrap();
    assert_eq!(
        (error.kind(), error.is_leaf(), error.leaf_text().as_str()),
        (SyntaxKind::Error, true, "*")
    );
    assert_eq!((error.path(), error.offset()?), (&[1, 1][..], 8));
    assert_eq!(error.parent().unwrap().span(), strong.span());
    assert!(strong.child(2).is_none() && error.child(0).is_none() && tree.root().parent().is_none());
    assert!(tree.at(&[1, 2]).is_none() && tree.at(&[usize::MAX]).is_none());
    Ok(())
}

#[test]
fn children_and_preorder_are_exact() -> Result<(), Error> {
    let tree = built()?;
    let mut children = tree.root().children();
    assert_eq!(children.len(), 3);
    assert_eq!(children.next_back().unwrap().leaf_text(), "world");
    assert_eq!(children.next().unwrap().leaf_text(), "Hello");
    assert_eq!(
        (
            children.len(),
            children.next().unwrap().index(),
            children.next().is_none()
        ),
        (1, 1, true)
    );
    let preorder = tree.root().preorder();
    assert_eq!(preorder.len(), 6);
    let kinds: Vec<_> = preorder.map(|node| node.kind()).collect();
    let (markup, text, strong, error) = (
        SyntaxKind::Markup,
        SyntaxKind::Text,
        SyntaxKind::Strong,
        SyntaxKind::Error,
    );
    assert_eq!(kinds, [markup, text, strong, text, error, text]);
    assert_eq!(
        format!("{tree:?}"),
        r#"Markup [Text: "Hello", Strong [Text: "big", Error: "*"], Text: "world"]"#
    );
    Ok(())
}

#[test]
fn every_node_is_found_by_its_span() -> Result<(), Error> {
    let tree = built()?;
    for node in tree.root().preorder() {
        assert_eq!(tree.find(node.span())?.unwrap().path(), node.path());
        assert!(Span::FULL.contains(&node.span().number()));
    }
    assert!(tree.find(Span::from_number((1 << 47) - 1).unwrap())?.is_none());
    assert_eq!((Span::from_number(1), Span::from_number(1 << 47)), (None, None));
    Ok(())
}

#[test]
fn the_leaf_at_a_cursor_has_the_byte_on_its_side() -> Result<(), Error> {
    let tree = built()?;
    assert_eq!(tree.leaf_at(5, Side::Before)?.unwrap().leaf_text(), "Hello");
    assert_eq!(tree.leaf_at(5, Side::After)?.unwrap().leaf_text(), "big");
    assert_eq!(tree.leaf_at(14, Side::Before)?.unwrap().leaf_text(), "world");
    assert!(tree.leaf_at(14, Side::After)?.is_none() && tree.leaf_at(0, Side::Before)?.is_none());
    Ok(())
}

#[test]
fn a_replacement_keeps_the_spans_of_the_others() -> Result<(), Error> {
    let mut tree = built()?;
    let world = tree.at(&[2]).unwrap().span();
    let done = tree.replace(&[1], 0..2, |nodes| {
        nodes
            .leaf(SyntaxKind::Text, "small")?
            .leaf(SyntaxKind::Text, "er")?
            .wrap(SyntaxKind::Emph, 2)
            .map(drop)
    })?;
    assert_eq!((done.window, done.tried), (0..1, 1));
    assert_eq!(tree.root().text()?, "Hellosmallerworld");
    let found = tree.find(world)?.unwrap();
    assert_eq!((found.path(), found.range()?), (&[2][..], 12..17));
    Ok(())
}

#[test]
fn a_refused_replacement_changes_nothing_and_leaves_no_node_behind() -> Result<(), Error> {
    let mut tree = built()?;
    let shown = format!("{tree:?}");
    let leaf = |nodes: &mut typst_tree::Nodes<'_>| nodes.leaf(SyntaxKind::Text, "x").map(drop);
    assert_eq!(tree.replace(&[7], 0..1, leaf), Err(Error::NoNode));
    assert_eq!(tree.replace(&[0], 0..0, leaf), Err(Error::Leaf));
    assert_eq!(tree.replace(&[], 2..4, leaf), Err(Error::Range));
    assert_eq!(tree.replace(&[], 2..usize::MAX, leaf), Err(Error::Range));
    let stopped = tree.replace(&[], 0..1, |nodes| {
        nodes.leaf(SyntaxKind::Text, "x")?.wrap(SyntaxKind::Emph, 2).map(drop)
    });
    assert_eq!(stopped, Err(Error::Stack));
    let wrong = tree.replace(&[], 0..1, |nodes| {
        nodes
            .leaf(SyntaxKind::Text, "x")?
            .leaf(SyntaxKind::Error, "y")
            .map(drop)
    });
    assert_eq!(wrong, Err(Error::Kind));
    assert_eq!(format!("{tree:?}"), shown);
    // A node that was left on the stack would come now.
    tree.replace(&[], 0..3, leaf)?;
    assert_eq!(tree.root().text()?, "x");
    Ok(())
}

#[test]
fn what_isnt_numbered_stays_on_the_stack() -> Result<(), Error> {
    let mut builder = Builder::new()?;
    builder
        .leaf(SyntaxKind::Text, "a")?
        .leaf(SyntaxKind::Text, "b")?
        .wrap(SyntaxKind::Markup, 2)?;
    let refused = builder.number(FileId::MIN, 2..4).unwrap_err();
    let (error, builder) = (refused.error, refused.into_builder());
    assert_eq!((error, builder.count()), (Error::Unnumberable, 1));
    let refused = builder.number(FileId::MIN, 1..9).unwrap_err();
    assert_eq!(refused.error, Error::Numbers);
    assert_eq!(refused.to_string(), "the numbers must lie in 2..2^47");
    let tree = refused.into_builder().number(FileId::MIN, 2..5)?;
    assert_eq!(tree.root().text()?, "ab");
    assert_eq!(
        Builder::new()?.number(FileId::MIN, Span::FULL).unwrap_err().error,
        Error::Stack
    );
    Ok(())
}

#[test]
fn what_isnt_built_stays_on_the_stack() -> Result<(), Error> {
    let mut builder = Builder::new()?;
    builder.leaf(SyntaxKind::Text, "a")?;
    assert_eq!(builder.leaf(SyntaxKind::Error, "b").unwrap_err(), Error::Kind);
    assert_eq!(builder.wrap(SyntaxKind::Error, 1).unwrap_err(), Error::Kind);
    assert_eq!(builder.wrap(SyntaxKind::Markup, 2).unwrap_err(), Error::Stack);
    assert_eq!(builder.wrap(SyntaxKind::Markup, usize::MAX).unwrap_err(), Error::Stack);
    assert_eq!(builder.count(), 1);
    // The node before the last one is dropped.
    builder.leaf(SyntaxKind::Text, "last")?;
    assert_eq!(builder.number(FileId::MIN, Span::FULL)?.root().leaf_text(), "last");
    Ok(())
}

#[test]
fn neighbors_are_no_trivia() -> Result<(), Error> {
    let mut builder = Builder::new()?;
    builder
        .leaf(SyntaxKind::Text, "one")?
        .leaf(SyntaxKind::Space, " ")?
        .leaf(SyntaxKind::Text, "two")?
        .wrap(SyntaxKind::Strong, 1)?
        .wrap(SyntaxKind::Markup, 3)?;
    let tree = builder.number(FileId::MIN, Span::FULL)?;
    let (one, strong) = (tree.at(&[0]).unwrap(), tree.at(&[2]).unwrap());
    assert_eq!(one.next_leaf()?.unwrap().path(), [2, 0]);
    assert_eq!(one.next_sibling()?.unwrap().path(), [2]);
    assert_eq!(strong.prev_leaf()?.unwrap().path(), [0]);
    assert_eq!(strong.prev_sibling()?.unwrap().path(), [0]);
    assert!(strong.next_leaf()?.is_none() && one.prev_sibling()?.is_none() && tree.root().next_sibling()?.is_none());
    Ok(())
}

#[test]
fn a_cursor_goes_to_children_siblings_and_the_parent() -> Result<(), Error> {
    let tree = built()?;
    let mut cursor = tree.root().walk();
    assert!(!cursor.goto_parent() && !cursor.goto_next_sibling() && cursor.goto_first_child());
    assert!(!cursor.goto_first_child() && !cursor.goto_prev_sibling() && cursor.goto_next_sibling());
    assert_eq!((cursor.node().kind(), cursor.depth()), (SyntaxKind::Strong, 1));
    assert!(cursor.goto_last_child() && !cursor.goto_next_sibling());
    assert_eq!((cursor.node().path(), cursor.depth()), (&[1, 1][..], 2));
    assert!(cursor.goto_prev_sibling() && cursor.goto_parent() && !cursor.goto_child(2) && cursor.goto_child(1));
    assert_eq!(cursor.node().leaf_text(), "*");
    // The cursor never moves above the node where it began.
    cursor.reset(tree.at(&[1]).unwrap());
    assert!(!cursor.goto_next_sibling() && !cursor.goto_parent());
    Ok(())
}

#[test]
fn preorder_of_a_subtree_has_its_paths() -> Result<(), Error> {
    let tree = built()?;
    let paths: Vec<_> = tree.root().preorder().map(|node| node.path().to_vec()).collect();
    assert_eq!(paths, [&[][..], &[0], &[1], &[1, 0], &[1, 1], &[2]]);
    let below: Vec<_> = tree
        .at(&[1])
        .unwrap()
        .preorder()
        .map(|node| node.path().to_vec())
        .collect();
    assert_eq!(below, [&[1][..], &[1, 0], &[1, 1]]);
    Ok(())
}

#[test]
fn warnings_are_told_and_hints_need_something_to_stand_on() -> Result<(), Error> {
    let mut builder = Builder::new()?;
    assert_eq!(builder.warn("careful").unwrap_err(), Error::Stack);
    builder.leaf(SyntaxKind::Text, "a")?;
    assert_eq!(builder.hint("so").unwrap_err(), Error::NoHints);
    builder.warn("careful")?.hint("so")?;
    builder.error("wrong", "b")?.hint("so")?.wrap(SyntaxKind::Markup, 2)?;
    let tree = builder.number(FileId::MIN, Span::FULL)?;
    let warned: Vec<_> = tree.root().preorder().map(|node| node.has_warnings()).collect();
    assert_eq!(warned, [true, true, false]);
    Ok(())
}

#[test]
fn a_tree_is_copied_renumbered_and_wrapped() -> Result<(), Error> {
    let mut tree = built()?;
    tree.replace(&[], 3..3, |nodes| nodes.copy(&[1])?.warn("again").map(drop))?;
    assert_eq!(tree.root().text()?, "Hellobig*worldbig*");
    assert_eq!(tree.renumber(FileId::MIN, 2..10), Err(Error::Unnumberable));
    tree.renumber(FileId::MIN, 2..11)?;
    let numbers: Vec<_> = tree.root().preorder().map(|node| node.span().number()).collect();
    assert_eq!(numbers, [2, 3, 4, 5, 6, 7, 8, 9, 10]);
    let mut builder = tree.into_builder()?;
    builder.leaf(SyntaxKind::Text, "!")?.wrap(SyntaxKind::Markup, 2)?;
    let tree = builder.number(FileId::MIN, Span::FULL)?;
    assert_eq!((tree.root().descendants(), tree.root().text()?.len()), (11, 19));
    Ok(())
}

#[test]
fn errors_and_warnings_are_told_with_their_hints() -> Result<(), Error> {
    let mut builder = Builder::new()?;
    builder
        .leaf(SyntaxKind::Text, "fine")?
        .warn("inner")?
        .warn("outer")?
        .hint("like so")?;
    builder.error("wrong", "x")?.hint("this")?.hint("or that")?;
    builder.wrap(SyntaxKind::Markup, 2)?;
    let tree = builder.number(FileId::MIN, Span::FULL)?;
    let told = tree.diagnostics()?;
    let said: Vec<_> = told
        .iter()
        .map(|one| (one.severity, one.message.as_str(), one.range.clone()))
        .collect();
    let wanted = [
        (Severity::Error, "wrong", 4..5),
        (Severity::Warning, "outer", 0..4),
        (Severity::Warning, "inner", 0..4),
    ];
    assert_eq!(said, wanted);
    let hints: Vec<_> = told
        .iter()
        .flat_map(|one| &one.hints)
        .map(|hint| hint.text.as_str())
        .collect();
    assert_eq!(hints, ["this", "or that", "like so"]);
    assert_eq!(
        tree.find(told[0].span)?.map(|node| node.kind()),
        Some(SyntaxKind::Error)
    );
    Ok(())
}

#[test]
fn trees_are_compared_apart_from_their_spans() -> Result<(), Error> {
    let (one, mut other) = (built()?, built()?);
    other.renumber(FileId::MAX, 50..90)?;
    assert!(one.root().spanless_eq(&other.root()));
    assert!(!one.root().spanless_eq(&other.at(&[1]).unwrap()));
    other.replace(&[], 2..3, |nodes| nodes.copy(&[1, 0]).map(drop))?;
    assert!(!one.root().spanless_eq(&other.root()));
    assert!(other.at(&[2]).unwrap().spanless_eq(&other.at(&[1, 0]).unwrap()));
    Ok(())
}

#[test]
fn children_are_picked_by_their_class() -> Result<(), Error> {
    let mut builder = Builder::new()?;
    builder.leaf(SyntaxKind::Int, "1")?.leaf(SyntaxKind::Space, " ")?;
    builder.leaf(SyntaxKind::Plus, "+")?.leaf(SyntaxKind::Ident, "x")?;
    builder.wrap(SyntaxKind::Binary, 4)?;
    let tree = builder.number(FileId::MIN, Span::FULL)?;
    let root = tree.root();
    let index = |node: Option<typst_tree::Node<'_>>| node.map(|it| it.index());
    assert_eq!(index(root.child_of(NodeClass::Expr, 0)), Some(0));
    assert_eq!(index(root.child_of(NodeClass::Expr, 1)), Some(3));
    assert_eq!(index(root.child_of_from_end(NodeClass::Expr, 0)), Some(3));
    assert_eq!(index(root.child_of_from_end(NodeClass::Solid, 1)), Some(2));
    assert_eq!(index(root.child_of(NodeClass::Of(SyntaxKind::Plus), 0)), Some(2));
    assert!(
        root.child_of(NodeClass::Pattern, 2).is_none() && root.child_of(NodeClass::Of(SyntaxKind::Error), 0).is_none()
    );
    Ok(())
}

#[test]
fn nodes_before_the_numbered_one_are_dropped() -> Result<(), Error> {
    let mut builder = Builder::new()?;
    builder.leaf(SyntaxKind::Text, "a")?.leaf(SyntaxKind::Text, "b")?;
    let mut builder = builder.number(FileId::MIN, Span::FULL)?.into_builder()?;
    assert_eq!(builder.count(), 1);
    assert_eq!(builder.wrap(SyntaxKind::Markup, 2).unwrap_err(), Error::Stack);
    Ok(())
}

/// A sum of two numbers below a root.
fn sum(first: &str, second: &str) -> Result<Builder, Error> {
    let mut builder = Builder::new()?;
    builder
        .leaf(SyntaxKind::Int, first)?
        .leaf(SyntaxKind::Plus, "+")?
        .leaf(SyntaxKind::Int, second)?;
    builder.wrap(SyntaxKind::Binary, 3)?.wrap(SyntaxKind::Code, 1)?;
    Ok(builder)
}

#[test]
fn nodes_that_go_on_are_followed_through_updates() -> Result<(), Error> {
    let mut tree = sum("1", "2")?.number(FileId::MIN, Span::FULL)?;
    let spans: Vec<Span> = tree.root().preorder().map(|node| node.span()).collect();
    // One number changes, and goes on as another number.
    let change = tree.update(sum("1", "20")?)?;
    assert_eq!(change.touched, Touched::Leaf { depth: 1, index: 2 });
    assert_eq!(
        spans.iter().map(|span| change.follow(*span)).collect::<Vec<_>>(),
        spans.iter().map(|span| Some(*span)).collect::<Vec<_>>()
    );
    assert_eq!(tree.root().text()?, "1+20");
    // A number becomes a name. It is gone, and the other nodes stay.
    let change = tree.reconcile(&[0], 0..1, |nodes| nodes.leaf(SyntaxKind::Ident, "x").map(drop))?;
    assert_eq!(change.follow(spans[2]), None);
    assert_eq!(
        [0, 1, 3, 4].map(|at| change.follow(spans[at])),
        [0, 1, 3, 4].map(|at| Some(spans[at]))
    );
    assert_eq!(tree.find(spans[4])?.map(|node| node.leaf_text()), Some("20".into()));
    // A root of another kind takes the place of all nodes.
    let mut other = Builder::new()?;
    other.leaf(SyntaxKind::Text, "a")?.wrap(SyntaxKind::Markup, 1)?;
    let change = tree.update(other)?;
    assert_eq!((change.touched.clone(), change.follow(spans[0])), (Touched::Root, None));
    // A builder without a node changes nothing.
    assert_eq!(tree.update(Builder::new()?).unwrap_err(), Error::Stack);
    assert_eq!(tree.root().text()?, "a");
    Ok(())
}

#[test]
fn nodes_are_compared_and_lead_upwards_and_to_their_ends() -> Result<(), Error> {
    let tree = sum("1", "2")?.number(FileId::MIN, Span::FULL)?;
    let last = tree.at(&[0, 2]).unwrap();
    let kinds: Vec<SyntaxKind> = last.ancestors().map(|node| node.kind()).collect();
    assert_eq!(kinds, [SyntaxKind::Binary, SyntaxKind::Code]);
    assert_eq!(
        (last.parent_kind(), tree.root().parent_kind()),
        (Some(SyntaxKind::Binary), None)
    );
    assert_eq!(
        tree.root().leftmost_leaf().map(|leaf| leaf.leaf_text()),
        Some("1".into())
    );
    assert_eq!(tree.root().rightmost_leaf(), Some(last.clone()));
    let nodes: HashSet<Node<'_>> = tree.root().preorder().chain(tree.root().preorder()).collect();
    assert_eq!(nodes.len(), 5);
    assert_eq!(tree.find_range(0..1)?, tree.at(&[0, 0]));
    assert_eq!(
        (tree.find_range(0..3)?, tree.find_range(1..3)?),
        (Some(tree.root()), None)
    );
    assert_eq!(
        (tree.find_cover(1..2)?, tree.find_cover(1..3)?),
        (tree.at(&[0, 1]), tree.at(&[0]))
    );
    assert_eq!(tree.range(last.span())?, Some(2..3));
    let copy = tree.clone();
    assert_eq!(copy.range(last.span())?, Some(2..3));
    let same = sum("1", "2")?.number(FileId::MIN, Span::FULL)?;
    assert!(same.root() != tree.root() && same.root().spanless_eq(&tree.root()));
    Ok(())
}

#[test]
fn trees_go_to_other_threads_and_errors_become_those_of_any_program() {
    fn goes<T: Send>() {}
    goes::<Tree>();
    goes::<Builder>();
    goes::<Source>();
    fn becomes<E: std::error::Error + Send + Sync + 'static>(error: E) -> Box<dyn std::error::Error + Send + Sync> {
        Box::from(error)
    }
    assert_eq!(becomes(Error::Stack).to_string(), "there are too few nodes");
    let refused = Builder::new().unwrap().number(FileId::MIN, Span::FULL).unwrap_err();
    assert_eq!(becomes(refused).to_string(), "there are too few nodes");
    let tree = sum("1", "2").unwrap().number(FileId::MIN, Span::FULL).unwrap();
    let text = std::thread::spawn(move || tree.root().text()).join().unwrap();
    assert_eq!(text.as_deref(), Ok("1+2"));
}
