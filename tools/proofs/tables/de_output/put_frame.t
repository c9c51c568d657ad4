use Rattle·de_output·proofs.proofs.Puts.{put-made}
returns => search put-made
