Set ^a(1)="x"
For i=1:1:3 { Write i,! }
Write ^a(1)