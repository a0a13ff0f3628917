//! Hand-made parents. The reference makes the views of constants, imports, fields, methods,
//! parameters, branches and arms for the children of a node alone; so that each such node can be
//! looked at by itself, nodes are added behind the tree that have it for their first child.

use crate::{
    cst::{ConcreteSyntaxTree, Node, NodeIdx, NodeKind, NodeView},
    lexer::TokenIdx,
};
use plank_core::{Idx, Span};
use plank_session::StrId;

#[derive(Clone)]
pub struct Parents {
    file: NodeIdx,
    group_file: NodeIdx,
    group_name: NodeIdx,
    struct_def: NodeIdx,
    struct_body: NodeIdx,
    struct_lit: NodeIdx,
    literal_type: NodeIdx,
    conditional: NodeIdx,
    branches: NodeIdx,
    selection: NodeIdx,
    arms: NodeIdx,
    function: NodeIdx,
    parameters: NodeIdx,
}

impl Parents {
    pub fn add_to(cst: &mut ConcreteSyntaxTree) -> Parents {
        let mut made = Maker { cst };
        let file = made.node(NodeKind::File, &[]);
        let group_name = made.node(NodeKind::Identifier { ident: StrId::ZERO }, &[]);
        let group = made.node(NodeKind::ImportGroupDecl { public: false }, &[group_name]);
        let group_file = made.node(NodeKind::File, &[group]);
        let struct_body = made.node(NodeKind::StructBody, &[]);
        let struct_def = made.node(NodeKind::StructDef, &[struct_body]);
        let literal_type = made.node(NodeKind::SelfType, &[]);
        let struct_lit = made.node(NodeKind::StructLit, &[literal_type]);
        let branches = made.node(NodeKind::ElseIfBranchList, &[]);
        let parts = [made.node(NodeKind::SelfType, &[]), made.node(NodeKind::Block, &[]), branches];
        let conditional = made.node(NodeKind::If, &parts);
        let arms = made.node(NodeKind::MatchArmList, &[]);
        let parts = [made.node(NodeKind::SelfType, &[]), arms];
        let selection = made.node(NodeKind::Match, &parts);
        let parameters = made.node(NodeKind::ParamList, &[]);
        let parts =
            [parameters, made.node(NodeKind::SelfType, &[]), made.node(NodeKind::Block, &[])];
        let function = made.node(NodeKind::FnDef { eager: false }, &parts);
        Parents {
            file,
            group_file,
            group_name,
            struct_def,
            struct_body,
            struct_lit,
            literal_type,
            conditional,
            branches,
            selection,
            arms,
            function,
            parameters,
        }
    }

    /// Makes the node the one to look at.
    pub fn adopt(&self, cst: &mut ConcreteSyntaxTree, child: NodeIdx) {
        for parent in [self.file, self.struct_body, self.branches, self.arms, self.parameters] {
            cst.nodes[parent].first_child = Some(child);
        }
        for sibling in [self.group_name, self.literal_type] {
            cst.nodes[sibling].next_sibling = Some(child);
        }
    }

    pub fn file<'t>(&self, cst: &'t ConcreteSyntaxTree) -> NodeView<'t> {
        NodeView::new(cst, self.file)
    }

    /// The file of an import group.
    pub fn group_file<'t>(&self, cst: &'t ConcreteSyntaxTree) -> NodeView<'t> {
        NodeView::new(cst, self.group_file)
    }

    pub fn struct_def<'t>(&self, cst: &'t ConcreteSyntaxTree) -> NodeView<'t> {
        NodeView::new(cst, self.struct_def)
    }

    pub fn struct_lit<'t>(&self, cst: &'t ConcreteSyntaxTree) -> NodeView<'t> {
        NodeView::new(cst, self.struct_lit)
    }

    pub fn conditional<'t>(&self, cst: &'t ConcreteSyntaxTree) -> NodeView<'t> {
        NodeView::new(cst, self.conditional)
    }

    pub fn selection<'t>(&self, cst: &'t ConcreteSyntaxTree) -> NodeView<'t> {
        NodeView::new(cst, self.selection)
    }

    pub fn function<'t>(&self, cst: &'t ConcreteSyntaxTree) -> NodeView<'t> {
        NodeView::new(cst, self.function)
    }
}

struct Maker<'a> {
    cst: &'a mut ConcreteSyntaxTree,
}

impl Maker<'_> {
    fn node(&mut self, kind: NodeKind, children: &[NodeIdx]) -> NodeIdx {
        for pair in children.windows(2) {
            self.cst.nodes[pair[0]].next_sibling = Some(pair[1]);
        }
        let tokens = Span::new(TokenIdx::ZERO, TokenIdx::ZERO);
        let first_child = children.first().copied();
        self.cst.nodes.push(Node { kind, tokens, next_sibling: None, first_child })
    }
}
