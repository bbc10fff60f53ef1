"""What has to be believed: the definitions on which the contract of a public call rests."""
