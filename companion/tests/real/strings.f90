! Letters: counting, replacing, comparing.
program strings
  implicit none
  character(len=60) :: text = 'the quick brown fox jumps over the lazy dog', other
  character(len=1) :: letter
  character(len=8) :: words(20), found
  integer :: i, j, vowels, places(26), code

  vowels = 0
  do i = 1, len(text)                      != parallel
    select case (text(i:i))
    case ('a', 'e', 'i', 'o', 'u')
      vowels = vowels + 1
    end select
  end do
  do i = 1, len(text)                      != carries OTHER
    letter = text(i:i)
    if (letter >= 'a' .and. letter <= 'z') letter = achar(iachar(letter) - 32)
    other(i:i) = letter
  end do
  places = 0
  do i = len(text), 1, -1                  != carries PLACES
    code = iachar(text(i:i)) - iachar('a') + 1
    if (code < 1 .or. code > 26) cycle
    places(code) = i
  end do
  do i = 1, 20                             != parallel
    write (words(i), '(a, i0)') 'word', mod(7*i, 20)
  end do
  found = words(1)
  do i = 2, 20                             != carries FOUND
    if (words(i) > found) found = words(i)
  end do
  do i = 1, 20                             != parallel
    do j = 1, 8                            != carries WORDS
      if (words(i)(j:j) == ' ') words(i)(j:j) = '.'
    end do
  end do
  print *, vowels, sum(places), found, words(20), other
end program strings
