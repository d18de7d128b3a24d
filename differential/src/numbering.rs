//! Document 01's numbers against the crate's types: twelve scalars, thirteen constructors, type codes 0 to 180 and
//! the 79 functions. A code from 0 to 155 is 12 x constructor + scalar; 156 is an array, a pointer or a texture, and a
//! texture here; 157 to 180 are the predeclared results of Modf and Frexp. An operand is a type and, from change request
//! (v), a mark, which the crate knows nothing of.

use naga::ir::{
    ImageClass, ImageDimension, MathFunction as Mf, PredeclaredType, Scalar, ScalarKind, TypeInner, VectorSize,
};

/// The number that stands for "none" in every answer.
pub const NONE: u8 = 255;

/// How many scalars there are; a constructor's codes are as many in a row.
pub const SCALAR_COUNT: u8 = 12;

/// The one code of everything that has no scalar and is no result.
pub const OPAQUE: u8 = 156;

/// The last code that a leaf may have.
pub const LAST_LEAF: u8 = OPAQUE;

/// The last type code.
pub const LAST_CODE: u8 = 180;

/// The marks of operands.
pub const CONSTANT: u8 = 0;
pub const MEASURED: u8 = 1;

/// The most operands that a call is asked with here.
pub const MOST_OPERANDS: usize = 70_001;

/// The marks of so many constant operands, at most `MOST_OPERANDS`.
pub fn constants(operands: usize) -> &'static [u8] {
    static CONSTANTS: [u8; MOST_OPERANDS] = [CONSTANT; MOST_OPERANDS];
    &CONSTANTS[..operands]
}

/// An operand: its type's code, and whether it is measured.
#[derive(Clone, Copy, Debug, PartialEq, Eq)]
pub struct Operand {
    pub code: u8,
    pub measured: bool,
}

impl Operand {
    pub fn mark(self) -> u8 {
        if self.measured {
            MEASURED
        } else {
            CONSTANT
        }
    }
}

const FIRST_MODF: u8 = 157;
const FIRST_FREXP: u8 = 169;

const SCALARS: [Scalar; SCALAR_COUNT as usize] = [
    Scalar::ABSTRACT_INT,
    Scalar::ABSTRACT_FLOAT,
    Scalar::I32,
    Scalar::I16,
    Scalar::I64,
    Scalar::U32,
    Scalar::U16,
    Scalar::U64,
    Scalar::F32,
    Scalar::F16,
    Scalar::F64,
    Scalar::BOOL,
];

const SIZES: [VectorSize; 3] = [VectorSize::Bi, VectorSize::Tri, VectorSize::Quad];

/// The scalars of a predeclared result, in the order of its codes.
const RESULT_SCALARS: [Scalar; 3] = [Scalar::F32, Scalar::F16, Scalar::F64];

/// The functions by number: the order in which the crate's mathfunction.rs first names them.
pub const FUNCTIONS: [Mf; 79] = [
    Mf::Abs,
    Mf::Sign,
    Mf::Min,
    Mf::Max,
    Mf::Clamp,
    Mf::Sin,
    Mf::Cos,
    Mf::Tan,
    Mf::Asin,
    Mf::Acos,
    Mf::Atan,
    Mf::Sinh,
    Mf::Cosh,
    Mf::Tanh,
    Mf::Asinh,
    Mf::Acosh,
    Mf::Atanh,
    Mf::Saturate,
    Mf::Radians,
    Mf::Degrees,
    Mf::Ceil,
    Mf::Floor,
    Mf::Round,
    Mf::Fract,
    Mf::Trunc,
    Mf::Exp,
    Mf::Exp2,
    Mf::Log,
    Mf::Log2,
    Mf::Sqrt,
    Mf::InverseSqrt,
    Mf::Atan2,
    Mf::Pow,
    Mf::Step,
    Mf::Fma,
    Mf::SmoothStep,
    Mf::CountTrailingZeros,
    Mf::CountLeadingZeros,
    Mf::CountOneBits,
    Mf::ReverseBits,
    Mf::FirstTrailingBit,
    Mf::FirstLeadingBit,
    Mf::Pack4x8snorm,
    Mf::Pack4x8unorm,
    Mf::Pack2x16snorm,
    Mf::Pack2x16unorm,
    Mf::Pack2x16float,
    Mf::Pack4xI8,
    Mf::Pack4xU8,
    Mf::Pack4xI8Clamp,
    Mf::Pack4xU8Clamp,
    Mf::Unpack4x8snorm,
    Mf::Unpack4x8unorm,
    Mf::Unpack2x16snorm,
    Mf::Unpack2x16unorm,
    Mf::Unpack2x16float,
    Mf::Unpack4xI8,
    Mf::Unpack4xU8,
    Mf::Dot4I8Packed,
    Mf::Dot4U8Packed,
    Mf::Dot,
    Mf::Modf,
    Mf::Frexp,
    Mf::Ldexp,
    Mf::Outer,
    Mf::Cross,
    Mf::Distance,
    Mf::Length,
    Mf::Normalize,
    Mf::FaceForward,
    Mf::Reflect,
    Mf::Refract,
    Mf::Mix,
    Mf::Inverse,
    Mf::Transpose,
    Mf::Determinant,
    Mf::QuantizeToF16,
    Mf::ExtractBits,
    Mf::InsertBits,
];

/// Whether the crate holds the function's overloads as a List; all others are Regular.
pub fn is_list(function: u8) -> bool {
    matches!(
        FUNCTIONS[function as usize],
        Mf::Ldexp | Mf::Outer | Mf::Refract | Mf::Mix | Mf::Transpose | Mf::ExtractBits | Mf::InsertBits
    )
}

/// The crate's scalar of a number from 0 to 11.
pub fn scalar(number: u8) -> Scalar {
    SCALARS[number as usize]
}

/// Whether a type's scalar is abstract, by the crate's word on scalars.
pub fn is_abstract(code: u8) -> bool {
    code < OPAQUE && scalar(code % SCALAR_COUNT).is_abstract()
}

/// The number of one of the twelve scalars.
pub fn scalar_number(scalar: Scalar) -> u8 {
    let place = SCALARS.iter().position(|&known| known == scalar);
    place.expect("the crate answers only scalars of the domain") as u8
}

/// The crate's type of a code from 0 to 156.
pub fn inner(code: u8) -> TypeInner {
    let scalar = SCALARS[(code % SCALAR_COUNT) as usize];
    match (code / SCALAR_COUNT) as usize {
        0 => TypeInner::Scalar(scalar),
        vector @ 1..=3 => TypeInner::Vector { size: SIZES[vector - 1], scalar },
        matrix @ 4..=12 => {
            TypeInner::Matrix { columns: SIZES[(matrix - 4) / 3], rows: SIZES[(matrix - 4) % 3], scalar }
        }
        _ => TypeInner::Image {
            dim: ImageDimension::D2,
            arrayed: false,
            class: ImageClass::Sampled { kind: ScalarKind::Float, multi: false },
        },
    }
}

/// The code of a scalar, vector, matrix or texture.
pub fn code(inner: &TypeInner) -> u8 {
    let (constructor, scalar) = match *inner {
        TypeInner::Image { .. } => return OPAQUE,
        TypeInner::Scalar(scalar) => (0, scalar),
        TypeInner::Vector { size, scalar } => (1 + size_number(size), scalar),
        TypeInner::Matrix { columns, rows, scalar } => (4 + 3 * size_number(columns) + size_number(rows), scalar),
        ref other => panic!("{other:?} is no type of a rule"),
    };
    SCALAR_COUNT * constructor + scalar_number(scalar)
}

/// The crate's predeclared result of a code from 157 to 180.
pub fn predeclared(code: u8) -> PredeclaredType {
    let (modf, number) = if code < FIRST_FREXP { (true, code - FIRST_MODF) } else { (false, code - FIRST_FREXP) };
    let size = (number >= 3).then(|| SIZES[(number / 3 - 1) as usize]);
    let scalar = RESULT_SCALARS[(number % 3) as usize];
    if modf {
        PredeclaredType::ModfResult { size, scalar }
    } else {
        PredeclaredType::FrexpResult { size, scalar }
    }
}

/// The code of a result of Modf or Frexp.
pub fn predeclared_code(result: &PredeclaredType) -> u8 {
    let (first, size, scalar) = match *result {
        PredeclaredType::ModfResult { size, scalar } => (FIRST_MODF, size, scalar),
        PredeclaredType::FrexpResult { size, scalar } => (FIRST_FREXP, size, scalar),
        ref other => panic!("{other:?} is no result of a math function"),
    };
    let place = RESULT_SCALARS.iter().position(|&known| known == scalar);
    let number = place.expect("Modf and Frexp have rules for F32, F16 and F64 only") as u8;
    first + 3 * size.map_or(0, |size| 1 + size_number(size)) + number
}

fn size_number(size: VectorSize) -> u8 {
    match size {
        VectorSize::Bi => 0,
        VectorSize::Tri => 1,
        VectorSize::Quad => 2,
    }
}
