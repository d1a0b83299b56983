C é
      k = 2 * 3 - 10
      w r i t e (6, 0 1 0) k                                               X
   10 f o r m a t (i 3)
* THE END
      e n d
