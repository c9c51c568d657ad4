use mathlib.Core.Logic.{⊎-elim}
use Rattle·tape·proofs.proofs.Texts.{part-some, part-past, part-over}
returns => search part-some
returns-2 => ⊎-elim (λ w. part-over _ _ _ (w .0 .taken) (w .1 .left)) (λ w. part-past _ _ _ (w .left)) (c .before .if1 .came)
