//! Views of declarations (ast/mod.rs of the Plank parser). What a node says is asked of the
//! library's accessors; lists go from link to link. Where the Plank parser would panic on a node
//! that lacks a part, the node's span is handed out as an error.

mod expr;

pub use expr::*;

use crate::{
    accessor,
    cst::{NodeKind, NodeView, StrId},
    lexer::TokenSpan,
};

#[derive(Debug, Clone, Copy)]
pub struct InitBlock<'cst> {
    body: BlockExpr<'cst>,
}

impl<'cst> InitBlock<'cst> {
    pub fn new(view: NodeView<'cst>) -> Option<Self> {
        let view = view.tells_node(accessor::INIT_BLOCK, 0)?;
        Some(Self { body: BlockExpr::new(view)? })
    }

    pub fn body(&self) -> BlockExpr<'cst> {
        self.body
    }

    pub fn node(&self) -> NodeView<'cst> {
        self.body.node()
    }
}

#[derive(Debug, Clone, Copy)]
pub struct RunBlock<'cst> {
    body: BlockExpr<'cst>,
}

impl<'cst> RunBlock<'cst> {
    pub fn new(view: NodeView<'cst>) -> Option<Self> {
        let view = view.tells_node(accessor::RUN_BLOCK, 0)?;
        Some(Self { body: BlockExpr::new(view)? })
    }

    pub fn body(&self) -> BlockExpr<'cst> {
        self.body
    }

    pub fn node(&self) -> NodeView<'cst> {
        self.body.node()
    }
}

#[derive(Debug, Clone, Copy)]
pub struct ConstDecl<'cst> {
    pub name: StrId,
    pub name_span: TokenSpan,
    view: NodeView<'cst>,
    pub r#type: Option<Expr<'cst>>,
    pub assign: Expr<'cst>,
}

impl<'cst> ConstDecl<'cst> {
    /// `Ok(None)` of other nodes, `Err(span)` where a part is missing.
    fn try_new(view: NodeView<'cst>) -> Result<Option<Self>, TokenSpan> {
        let NodeKind::ConstDecl { typed } = view.kind() else {
            return Ok(None);
        };
        let name = view.tells_name(accessor::CONST_DECL_NAME).ok_or(view.span())?;
        let name_span = view.tells_span(accessor::CONST_DECL_NAME_SPAN).ok_or(view.span())?;
        let r#type = typed.then(|| Expr::part(view, accessor::CONST_DECL_TYPE, 1)).transpose()?;
        let assign = Expr::part(view, accessor::CONST_DECL_ASSIGN, 1 + u32::from(typed))?;
        Ok(Some(Self { name, name_span, view, r#type, assign }))
    }

    pub fn span(&self) -> TokenSpan {
        self.view.span()
    }

    pub fn name_span(&self) -> TokenSpan {
        self.name_span
    }

    pub fn node(&self) -> NodeView<'cst> {
        self.view
    }
}

#[derive(Debug, Clone, Copy, PartialEq, Eq)]
pub enum ImportSuffix {
    As(Option<StrId>),
    All,
}

#[derive(Debug, Clone, Copy)]
pub struct Import<'cst> {
    path_node: NodeView<'cst>,
    first_path_segment_span: TokenSpan,
    pub public: bool,
    pub suffix: ImportSuffix,
    view: NodeView<'cst>,
}

impl<'cst> Import<'cst> {
    /// `Ok(None)` of other nodes, `Err(span)` where a part is missing.
    fn try_new(view: NodeView<'cst>) -> Result<Option<Self>, TokenSpan> {
        let as_name = || view.tells_name(accessor::IMPORT_AS_DECL_NAME).ok_or(view.span());
        let (public, suffix) = match view.kind() {
            NodeKind::ImportAsDecl { public } => (public, ImportSuffix::As(Some(as_name()?))),
            NodeKind::ImportDecl { public, glob: false } => (public, ImportSuffix::As(None)),
            NodeKind::ImportDecl { public, glob: true } => (public, ImportSuffix::All),
            _ => return Ok(None),
        };
        let path_node = view.tells_node(accessor::IMPORT_PATH, 0).ok_or(view.span())?;
        let first_path_segment_span =
            view.tells_span(accessor::IMPORT_FIRST_PATH_SEGMENT_SPAN).ok_or(view.span())?;
        Ok(Some(Self { path_node, first_path_segment_span, public, suffix, view }))
    }

    pub fn node(&self) -> NodeView<'cst> {
        self.view
    }

    pub fn collect_path_segments(&self, buf: &mut Vec<StrId>) {
        buf.extend(self.path_node.children().filter_map(NodeView::ident));
    }

    pub fn last_path_segment_span(&self) -> TokenSpan {
        let last = self.view.tells_span(accessor::IMPORT_LAST_PATH_SEGMENT_SPAN);
        last.unwrap_or(self.first_path_segment_span)
    }

    pub fn first_path_segment_span(&self) -> TokenSpan {
        self.first_path_segment_span
    }

    /// The segments that determine the imported file: of `use m::sub::X;` and of `use m::sub::*;`
    /// it is `m::sub`.
    pub fn file_path_span(&self) -> TokenSpan {
        let span = self.view.tells_span(accessor::IMPORT_FILE_PATH_SPAN);
        span.unwrap_or(self.first_path_segment_span)
    }
}

#[derive(Debug, Clone, Copy)]
pub struct ImportGroupItemView<'cst> {
    view: NodeView<'cst>,
}

impl<'cst> ImportGroupItemView<'cst> {
    pub fn name(&self) -> Option<StrId> {
        self.view.tells_name(accessor::IMPORT_GROUP_ITEM_NAME)
    }

    pub fn name_span(&self) -> Option<TokenSpan> {
        self.view.tells_span(accessor::IMPORT_GROUP_ITEM_NAME_SPAN)
    }

    pub fn alias(&self) -> Option<StrId> {
        self.view.tells_name(accessor::IMPORT_GROUP_ITEM_ALIAS)
    }

    pub fn span(&self) -> TokenSpan {
        self.view.span()
    }

    pub fn node(&self) -> NodeView<'cst> {
        self.view
    }
}

#[derive(Debug, Clone, Copy)]
pub struct ImportGroup<'cst> {
    view: NodeView<'cst>,
    first_path_segment_span: TokenSpan,
    pub public: bool,
}

impl<'cst> ImportGroup<'cst> {
    /// `Ok(None)` of other nodes, `Err(span)` where a part is missing.
    fn try_new(view: NodeView<'cst>) -> Result<Option<Self>, TokenSpan> {
        let NodeKind::ImportGroupDecl { public } = view.kind() else {
            return Ok(None);
        };
        let first_path_segment_span =
            view.tells_span(accessor::IMPORT_GROUP_FIRST_PATH_SEGMENT_SPAN).ok_or(view.span())?;
        Ok(Some(Self { view, first_path_segment_span, public }))
    }

    pub fn node(&self) -> NodeView<'cst> {
        self.view
    }

    pub fn collect_path_segments(&self, buf: &mut Vec<StrId>) {
        let is_path = |child: &NodeView<'cst>| child.kind() != NodeKind::ImportGroupItem;
        buf.extend(self.view.children().take_while(is_path).filter_map(NodeView::ident));
    }

    pub fn items(&self) -> impl Iterator<Item = ImportGroupItemView<'cst>> + use<'cst> {
        let items = self.view.children().filter(|child| child.kind() == NodeKind::ImportGroupItem);
        items.map(|view| ImportGroupItemView { view })
    }

    pub fn first_path_segment_span(&self) -> TokenSpan {
        self.first_path_segment_span
    }

    pub fn file_path_span(&self) -> TokenSpan {
        let span = self.view.tells_span(accessor::IMPORT_GROUP_FILE_PATH_SPAN);
        span.unwrap_or(self.first_path_segment_span)
    }
}

#[derive(Debug, Clone, Copy)]
pub enum TopLevelDef<'cst> {
    Init(InitBlock<'cst>),
    Run(RunBlock<'cst>),
    Const(ConstDecl<'cst>),
    Import(Import<'cst>),
    ImportGroup(ImportGroup<'cst>),
    Error { span: TokenSpan },
}

impl<'cst> TopLevelDef<'cst> {
    pub fn new(view: NodeView<'cst>) -> Self {
        Self::try_new(view).unwrap_or_else(|span| Self::Error { span })
    }

    fn try_new(view: NodeView<'cst>) -> Result<Self, TokenSpan> {
        if let Some(def) = ConstDecl::try_new(view)? {
            return Ok(Self::Const(def));
        }
        if let Some(def) = InitBlock::new(view) {
            return Ok(Self::Init(def));
        }
        if let Some(def) = RunBlock::new(view) {
            return Ok(Self::Run(def));
        }
        if let Some(def) = Import::try_new(view)? {
            return Ok(Self::Import(def));
        }
        if let Some(def) = ImportGroup::try_new(view)? {
            return Ok(Self::ImportGroup(def));
        }
        Err(view.span())
    }
}

#[derive(Debug, Clone, Copy)]
pub struct File<'cst>(NodeView<'cst>);

impl<'cst> File<'cst> {
    pub fn new(view: NodeView<'cst>) -> Option<Self> {
        view.tells_node(accessor::FILE, 0).map(Self)
    }

    /// Of a node that is known to be a File.
    pub(crate) fn of(view: NodeView<'cst>) -> Self {
        Self(view)
    }

    pub fn iter_defs(&self) -> impl Iterator<Item = TopLevelDef<'cst>> + use<'cst> {
        self.0.children().map(TopLevelDef::new)
    }

    pub fn node(&self) -> NodeView<'cst> {
        self.0
    }
}
